#!/usr/bin/env python3
"""Prints the purpose of each file, from its first comment. Run it at the top of the repository. It proves nothing.

    python3 tools/map.py            prints all crates of crates.txt, in order, and then the folders callers, rust,
    bench and tools
    python3 tools/map.py CRATE..    prints these crates, each with the crate of its tests if it has one
    python3 tools/map.py FOLDER..   prints another folder, like tools or callers/rust
    python3 tools/map.py --uncommented     prints the files of crates that have no first comment

It prints the first sentence of each comment. A folder below `proofs/` has the proofs of one function and is listed by
the function's name. Files that only list other files (Lib.antt, laws.antt) and generated Rust modules are left out.
"""
import glob
import os
import re
import signal
import sys
import textwrap

FOLDERS = ('callers', 'rust', 'bench', 'tools')
LISTS = ('Lib.antt', 'laws.antt')
MARKS = {'.rt': r'//[!/]?', '.rs': r'//[!/]?', '.antt': '--', '.sql': '--', '.md': '#'}
LEFT_OUT = ('.lock', '.out', '.gitignore', '.typed', 'LICENSE')


def crates():
    with open('crates.txt', encoding='utf-8') as lines:
        heads = [line.split('#')[0].split(':')[0].split() for line in lines]
    return [words[0] for words in heads if words]


def first_comment(path):
    """Returns the first paragraph of the comment at the beginning of a file, in one line, or an empty text."""
    with open(path, encoding='utf-8') as text:
        text = re.sub(r'\A#!.*\n', '', text.read())
    kind = os.path.splitext(path)[1]
    if kind == '.py' or text.startswith('"""'):
        found = re.match(r'"""(.*?)("""|\n\s*\n)', text, re.S)
        return ' '.join(found[1].split()) if found else ''
    if kind in ('.c', '.h') or text.startswith('/*'):
        found = re.match(r'/\*(.*?)(\*/|\n \*\s*\n)', text, re.S)
        return ' '.join(re.sub(r'(?m)^ \*', ' ', found[1]).split()) if found else ''
    lines = []
    for line in text.split('\n'):
        comment_line = re.match(rf'\s*(?:{MARKS.get(kind, "#")})(.*)', line)
        if not comment_line or not comment_line[1].strip():
            break
        lines.append(comment_line[1].strip())
    return ' '.join(lines)


def sentence(text):
    return re.split(r'(?<=[a-z`)\]A-Z0-9])\.\s', text + ' ')[0].strip().rstrip('.')


def files(crate):
    """Returns the sources, definitions, laws and lemmas of a crate. Lists and proofs of single functions are left out.
    """
    kinds = ('src/**/*.rt', 'specs/**/*.antt', 'proofs/*.antt')
    paths = [path for kind in kinds for path in sorted(glob.glob(f'crates/{crate}/{kind}', recursive=True))]
    return [path for path in paths if os.path.basename(path) not in LISTS]


def uncommented():
    return [path for crate in crates() for path in files(crate) if not first_comment(path)]


def proved_functions(crate):
    """Returns the functions that have a proof of their own, as paths below `proofs/`."""
    paths = glob.glob(f'crates/{crate}/proofs/*/**/*.antt', recursive=True)
    return sorted({os.path.relpath(os.path.dirname(path), f'crates/{crate}/proofs') for path in paths})


def entry(name, text):
    return textwrap.fill(f'  {name}  {text}', 120, subsequent_indent='      ', break_long_words=False, break_on_hyphens=False)


def show_crate(crate):
    print(f'crates/{crate}')
    for path in files(crate):
        print(entry(os.path.relpath(path, f'crates/{crate}'), sentence(first_comment(path)) or '(no first comment)'))
    functions = proved_functions(crate)
    if functions:
        print(entry('proofs/, by function:', ', '.join(functions)))


def show_folder(folder):
    print(folder)
    for place, subfolders, names in os.walk(folder):
        generated = 'cedar_' if place == 'rust/src' else 'out'
        subfolders[:] = sorted(name for name in subfolders if name not in ('out', 'target', '__pycache__') and not name.startswith(generated))
        for name in sorted(names):
            path = os.path.join(place, name)
            if not name.endswith(LEFT_OUT):
                print(entry(os.path.relpath(path, folder), sentence(first_comment(path))).rstrip())


def main(words):
    if words == ['--uncommented']:
        print('\n'.join(uncommented()))
        return 0
    names = crates()
    for word in words or [*names, *FOLDERS]:
        if word in names:
            show_crate(word)
            if words and f'{word}_tests' in names and f'{word}_tests' not in words:
                show_crate(f'{word}_tests')
        elif os.path.isdir(word):
            show_folder(word.rstrip('/'))
        else:
            print(f'map: no crate and no folder has the name {word}', file=sys.stderr)
            return 1
    return 0


if __name__ == '__main__':
    signal.signal(signal.SIGPIPE, signal.SIG_DFL)
    sys.exit(main(sys.argv[1:]))
