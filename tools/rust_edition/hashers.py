"""Lets a builder of hashers be any that can be cloned, where the layer needs one that can be copied.

The layer copies builders: `*map.hasher()`, and a parameter `hasher` that is passed on more than once. The package
clones them, so that std's `RandomState` can be used.
"""
import re

# `hasher` as a whole argument of a call
ARGUMENT = re.compile(r'(?<=\()hasher(?=[,)])|(?<=, )hasher(?=[,)])|(?<=\n)( *)hasher(?=,\n)')


def cloned(source):
    """Returns a text whose builders are cloned instead of copied."""
    if not re.search(r'\bBuildHasher \+ Copy\b', source):
        return source
    source = re.sub(r'\bBuildHasher \+ Copy\b', 'BuildHasher + Clone', source)
    source = re.sub(r'\*([\w.]+)\.hasher\(\)', r'\1.hasher().clone()', source)
    parts = re.split(r'(?=\bfn \w+)', source)
    return ''.join(with_clones(part) for part in parts)


def with_clones(function):
    """Clones the parameter `hasher` where it is passed on, except at the last place."""
    body = function.find('{')
    places = [m.end() for m in ARGUMENT.finditer(function) if m.start() > body >= 0]
    for end in reversed(places[:-1]):
        function = function[:end] + '.clone()' + function[end:]
    return function
