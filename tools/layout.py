#!/usr/bin/env python3
"""Checks the layout of the repository. Run it at the top of the repository. It proves nothing.

The last line is `N passed, M failed`, and `, K skipped` if rt is missing, which checks the format of the crates. It
checks:

- Each crate of crates.txt has its folder, and each folder of crates/ has its line. All .rt and .antt files belong to a
  crate.
- Each mutant can be applied: each of its old texts occurs once in its file. Mutants of a crate have different names.
- No crate cites the proofs of another crate.
- No hand-written file of sources, definitions, proofs or tools has 800 lines or more.
- HANDLES has its one line.
- Each crate has the format of `rt fmt`.
"""
import collections
import glob
import os
import re
import shutil
import subprocess
import sys

PASSED, FAILED = [0], []


def check(fault, is_valid):
    if is_valid:
        PASSED[0] += 1
    else:
        FAILED.append(fault)
        print(f'layout: FAILED: {fault}')


def crates():
    with open('crates.txt', encoding='utf-8') as lines:
        heads = [line.split('#')[0].split(':')[0].split() for line in lines]
    return [words[0] for words in heads if words]


def check_folders(names):
    folders = sorted(os.path.basename(path) for path in glob.glob('crates/*') if os.path.isdir(path))
    check(f'crates.txt and crates/ list different crates: {sorted(set(names) ^ set(folders))}', sorted(names) == folders)
    tracked = subprocess.run(['git', 'ls-files', '*.rt', '*.antt'], stdout=subprocess.PIPE, text=True, check=False).stdout.split()
    outside = [path for path in tracked if not re.match(r'crates/\w+/(src/.*\.rt|(specs|proofs)/.*\.antt)$', path)]
    check(f'files outside of the folders of a crate: {outside}', not outside)
    with open('HANDLES', encoding='utf-8') as text:
        check('HANDLES must have exactly the line `Handles allowed: none.`', text.read().strip() == 'Handles allowed: none.')


def mutant_fault(path, crate):
    """Returns the reason why a mutant cannot be applied, or an empty text."""
    texts, file, old, pairs = {}, None, None, 0
    with open(path, encoding='utf-8') as lines:
        for line in lines.read().split('\n'):
            if line.startswith('file: '):
                file = f'{crate}/{line[len("file: "):]}'
                if not os.path.exists(file):
                    return f'{file} does not exist'
            elif line.startswith('old: '):
                old = line[len('old: '):]
            elif line.startswith('new:'):
                if file not in texts:
                    with open(file, encoding='utf-8') as text:
                        texts[file] = text.read()
                if texts[file].count(old) != 1:
                    return f'the old text occurs {texts[file].count(old)} times in {file}, expected once'
                texts[file], pairs = texts[file].replace(old, line[len('new: '):]), pairs + 1
    return '' if pairs else 'the mutant has no line `new:`'


def check_mutants():
    for crate in sorted(glob.glob('crates/*')):
        names = collections.Counter()
        for path in sorted(glob.glob(f'{crate}/must-fail/*.edit') + glob.glob(f'{crate}/mutants/*.edit')):
            names[os.path.basename(path)] += 1
            fault = mutant_fault(path, crate)
            check(f'{path}: the mutant cannot be applied: {fault}', not fault)
        duplicates = [name for name, count in names.items() if count > 1]
        check(f'{crate}: several mutants have the same name: {duplicates}', not duplicates)


def check_citations(names):
    for name in names:
        others = set()
        for path in glob.glob(f'crates/{name}/**/*', recursive=True):
            if path.endswith(('.rt', '.antt')) and '/out/' not in path:
                with open(path, encoding='utf-8') as text:
                    others |= set(re.findall(r'Rattle\.(\w+)\.proofs\b|\b(\w+)::proofs\b', text.read()))
        cited = {other for pair in others for other in pair if other in names} - {name, name.removesuffix('_tests')}
        check(f'{name} cites proofs of other crates: {sorted(cited)}', not cited)


def check_lengths():
    kinds = ('crates/*/src/**/*.rt', 'crates/*/specs/**/*.antt', 'crates/*/proofs/**/*.antt', 'tools/**/*.py', 'callers/**/*.py',
             'callers/*/src/*.rs', 'rust/src/*.rs', 'rust/src/handwritten/*.rs', 'rust/tests/**/*.rs')
    for path in sorted(path for kind in kinds for path in glob.glob(kind, recursive=True)):
        if '/out/' not in path and '/target/' not in path:
            with open(path, encoding='utf-8') as text:
                count = text.read().count('\n')
            check(f'{path} has {count} lines, the limit is 799', count < 800)


def check_format(names):
    """Checks the format of each crate with rt's own code, because rt has no command that checks without changing files.
    """
    import cached_libraries
    rt = cached_libraries.rt_itself()
    rt.rtlib.stop = rt.stop
    for name in names:
        with open(os.devnull, 'w', encoding='utf-8') as out:
            check(f'{name} is not formatted: run rt fmt in its folder', not rt.rtlib.fmt(f'{os.getcwd()}/crates/{name}', '--check', out))


def main():
    names = crates()
    check_folders(names)
    check_mutants()
    check_citations(names)
    check_lengths()
    skipped = 0
    if shutil.which('rt'):
        check_format(names)
    else:
        print('layout: SKIPPED: the format of the crates (rt is not installed)')
        skipped = 1
    print(f'{PASSED[0]} passed, {len(FAILED)} failed' + (f', {skipped} skipped' if skipped else ''))
    return 1 if FAILED else 0


if __name__ == '__main__':
    sys.dont_write_bytecode = True
    sys.path.insert(0, os.path.dirname(os.path.abspath(__file__)))
    sys.exit(main())
