#!/usr/bin/env python3
"""Prints the definitions of the crates with their comments. Run it at the top of the repository. It proves nothing.

    python3 tools/definitions.py            lists the crates that have definitions, with their files and numbers of
    definitions
    python3 tools/definitions.py CRATE..    prints each public definition of these crates: its name, its file and its
    comment
    python3 tools/definitions.py WORD..     prints the definitions whose names contain one of the words, in any case
    python3 tools/definitions.py --uncommented     prints the definitions that have no comment

The definitions are the public ones in `specs/` of a crate. Those in `specs/laws/` are left out: they are laws with
their proofs. Words can be combined with crates: then only the definitions of these crates are searched.

A comment is the run of lines that begin with `--` directly above the definition. For mutual definitions, the comment of
the first one may be above the word `mutual`. Fields of records and constructors of data are printed if they have a
comment. If a definition has no comment, its own lines are printed.
"""
import glob
import os
import re
import signal
import sys
import textwrap

sys.dont_write_bytecode = True
from map import crates

HEAD = re.compile(r'( *)(?:(?:abbrev|unfoldable) )*pub (?!use\b|mod\b)(?:(record|data) )?([^\s:{(]+)')
MUTUAL = re.compile(r'(?:(?:abbrev|unfoldable) )*mutual\s*$')
PART = re.compile(r'\s+(?:pub )?([^\s:]+) :')


class Definition:
    """A public definition: its place, its comment, its own lines, and the comments of its parts."""

    def __init__(self, path, line, name, comment):
        self.path, self.line, self.name, self.comment, self.lines, self.parts = path, line, name, comment, [], []


def files(crate):
    """Returns the files of a crate that can have definitions. Files that only list other files are left out."""
    paths = sorted(glob.glob(f'crates/{crate}/specs/*.antt'))
    return [path for path in paths if os.path.basename(path) not in ('Lib.antt', 'laws.antt')]


def comment_above(lines, at):
    """Returns the comment that ends directly above a line, as one text."""
    first = at
    while first > 0 and lines[first - 1].lstrip().startswith('--'):
        first -= 1
    return ' '.join(line.strip().lstrip('-').strip() for line in lines[first:at])


def definitions(path):
    """Returns the public definitions of a file, in order. An indented item counts only inside of `mutual`; elsewhere it
    is a part.
    """
    with open(path, encoding='utf-8') as text:
        lines = text.read().split('\n')
    found, mutual, current, has_parts = [], False, None, False
    for at, line in enumerate(lines):
        if line and not line.startswith((' ', '-')):
            mutual = bool(MUTUAL.match(line))
        head = HEAD.match(line)
        if head and len(head[1]) == (2 if mutual else 0):
            above = at - 1 if mutual and at and MUTUAL.match(lines[at - 1]) and not comment_above(lines, at) else at
            current, has_parts = Definition(path, at + 1, head[3], comment_above(lines, above)), bool(head[2])
            found.append(current)
        elif has_parts and line.startswith(' ') and PART.match(line) and comment_above(lines, at):
            current.parts.append((PART.match(line)[1], comment_above(lines, at)))
        current = current if line.strip() else None
        has_parts = has_parts and current is not None
        if current and not line.lstrip().startswith('--'):
            current.lines.append(line)
    return found


def all_of(names):
    return [one for name in names for path in files(name) for one in definitions(path)]


def uncommented():
    return [one for one in all_of(crates()) if not one.comment]


def formatted(one):
    """Formats a definition for printing, filled to 120 columns."""
    lines = [f'{one.name}  ({one.path}:{one.line})']
    for text in [one.comment] + [f'{name}: {comment}' for name, comment in one.parts]:
        lines += textwrap.wrap(text, 120, initial_indent='    ', subsequent_indent='    ')
    if not one.comment:
        lines += ['    ' + line for line in one.lines]
    return '\n'.join(lines)


def main(words):
    names = crates()
    if words == ['--uncommented']:
        print('\n'.join(formatted(one) for one in uncommented()))
        return 0
    if not words:
        for name in names:
            counts = [(os.path.basename(path), len(definitions(path))) for path in files(name)]
            if counts:
                print(f'{name}: ' + ', '.join(f'{file} {count}' for file, count in counts))
        return 0
    name_parts = [word.lower() for word in words if word not in names]
    found = all_of([name for name in names if name in words] or names)
    found = [one for one in found if not name_parts or any(word in one.name.lower() for word in name_parts)]
    for one in found:
        print(formatted(one))
    if not found:
        print(f'definitions: no crate and no definition matches {" ".join(words)}', file=sys.stderr)
    return 0 if found else 1


if __name__ == '__main__':
    signal.signal(signal.SIGPIPE, signal.SIG_DFL)
    sys.exit(main(sys.argv[1:]))
