"""Replaces texts in the package as `replacements.txt` specifies.

A line `@ CRATE/FILE` begins the entries of a source. A line `@ CRATE/FILE after` begins the entries of the text that
the rules made of it. An entry is either a line `~ OLD ~> NEW`, or lines `- OLD` and then lines `+ NEW`. Empty lines
separate entries. A line with `#` is a comment.
"""
import os
import sys

HERE = os.path.dirname(os.path.abspath(__file__))


def entries(path=os.path.join(HERE, 'replacements.txt')):
    """Reads the pairs of texts for each source, and for each file after the rules: two dictionaries."""
    before, after = {}, {}
    with open(path, encoding='utf-8') as f:
        lines = f.read().split('\n')
    pairs, old, new = None, [], []
    for line in lines + ['']:
        if old and not line.startswith(('-', '+')):
            pairs.append(pair(old, new))
            old, new = [], []
        if line.startswith('@ '):
            name, _, late = line[2:].partition(' ')
            pairs = (after if late else before).setdefault(tuple(name.split('/', 1)), [])
        elif line.startswith('~ '):
            pairs.append(tuple(line[2:].split(' ~> ')))
        elif line.startswith('-'):
            old.append(line[2:])
        elif line.startswith('+'):
            new.append(line[2:])
    return before, after


def pair(old, new):
    """Returns the old and the new text of an entry. Lines without a replacement are removed with their line ends."""
    return ('\n'.join(old) + ('' if new else '\n'), '\n'.join(new))


def apply(source, pairs, name):
    """Applies the entries to a text.

    Raises:
        SystemExit: the old text of an entry is not in the text.
    """
    for old, new in pairs:
        if old not in source:
            print(f'rust_edition: an entry of {name} is out of date: the source does not contain {old[:60]!r}', file=sys.stderr)
            sys.exit(1)
        source = source.replace(old, new)
    return source
