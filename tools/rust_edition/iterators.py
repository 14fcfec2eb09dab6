"""Completes the iterators of the package: their sizes, their further traits, and what they derive.

The iterators of the layer have only `next`. `exceptions.ITERATORS` lists the iterators of a file by name, each with the
expression of its size and whether the size is exact.
"""
import re


def completed(source, entries):
    """Returns the text of a file with its iterators completed.

    Raises:
        AssertionError: the file has no iterator with a listed name.
    """
    for name, (size, is_exact, derives) in entries.items():
        source = with_size(source, name, size, is_exact)
        source = with_derives(source, name, derives)
    return source


def with_size(source, name, size, is_exact):
    """Adds `size_hint` to the implementation of an iterator, and the marker traits after it."""
    head = re.search(rf'^impl(<[^>]*>)? Iterator for {name}(<[^>]*>)?\s*\{{', source, re.M)
    assert head, name
    end = block_end(source, head.end() - 1)
    method = f'\n\n    fn size_hint(&self) -> (usize, Option<usize>) {{\n        {size}\n    }}\n'
    kind = name + re.sub(r"'\w+", "'_", head.group(2) or '')
    traits = (['ExactSizeIterator'] if is_exact else []) + ['FusedIterator']
    markers = ''.join(f'\n\nimpl {trait} for {kind} {{}}' for trait in traits)
    return source[:end].rstrip() + method + '}' + markers + source[end + 1:]


def with_derives(source, name, derives):
    """Makes the type of an iterator derive these traits."""
    pattern = rf'^(#\[derive\([^)]*\)\]\s*)?(pub (?:struct|enum) {name}\b)'
    source, count = re.subn(pattern, rf'#[derive({derives})]\n\2', source, flags=re.M)
    assert count == 1, name
    return source


def block_end(source, start):
    """Returns the position of the brace that closes the block that begins at `start`."""
    depth = 0
    for at in range(start, len(source)):
        depth += {'{': 1, '}': -1}.get(source[at], 0)
        if depth == 0:
            return at
    raise AssertionError('a block is not closed')
