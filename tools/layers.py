#!/usr/bin/env python3
"""Draws the layers of the crates, from crates.txt, as docs/layers.svg. Run it at the top of the repository.

`./test` fails if docs/layers.svg is not the picture of the present crates.txt.

Crates of tests are left out. A group is a set of crates that belong together: the base (used by entities and by
policies), entities, policies, the program, and the library for C. In a group a line leads from a crate down to each
crate that it uses directly, if no other path leads there. An arrow between groups means that one uses the other.
"""
import html
import os
import sys

sys.dont_write_bytecode = True
from map import first_comment, sentence

PICTURE = 'docs/layers.svg'
WIDE, HIGH, GAP, ROW, EDGE = 158, 24, 10, 46, 14
GROUPS = ('C', 'Program', 'Entities', 'Policies', 'Base')
TITLES = {'C': 'Library for C, deep copies', 'Program': 'Program: lines of text', 'Entities': 'Entities',
          'Policies': 'Policies', 'Base': 'Base: ids, values, sets of uids, graphs'}
FILL = {'C': '#f3e8fd', 'Program': '#e6f4ea', 'Entities': '#e8f0fe', 'Policies': '#fef7e0', 'Base': '#f1f3f4'}


def uses():
    """Returns the crates of crates.txt without tests, each with the crates of the repository that it uses."""
    found = {}
    with open('crates.txt', encoding='utf-8') as lines:
        for line in lines:
            name, colon, words = line.split('#')[0].partition(':')
            if colon:
                found[name.split()[0]] = words.split()
    kept = [name for name in found if not name.endswith('_tests') and name not in ('cedar_test_helpers', 'cedar_alloc_failures', 'cedar_examples')]
    return {name: [one for one in found[name] if one in kept] for name in kept}


def below(graph, name):
    """Returns all crates that a crate uses, directly or not."""
    found, left = set(), [name]
    while left:
        for one in graph[left.pop()]:
            if one not in found:
                found.add(one)
                left.append(one)
    return found


def groups(graph):
    """Returns the crates of each group, in the order of crates.txt."""
    tops = {'cedar_dry_run', 'cedar_queries', 'cedar_entity_diff'}
    entities = tops.union(*(below(graph, name) for name in tops))
    tops = {'cedar_naming', 'cedar_policy_diff'}
    policies = tops.union(*(below(graph, name) for name in tops))
    base = (entities & policies) | {'cedar_keyed_hash', 'cedar_components', 'cedar_graph', 'cedar_uid_sets'}

    def group(name):
        if name in base:
            return 'Base'
        if name.startswith(('cedar_c_', 'cedar_deep_copy')) or name == 'cedar_c':
            return 'C'
        return 'Entities' if name in entities else 'Policies' if name in policies else 'Program'

    return {one: [name for name in graph if group(name) == one] for one in GROUPS}


def direct(graph, names):
    """Returns the edges among some crates without those that follow from others."""
    inside = {name: [one for one in graph[name] if one in names] for name in names}
    return {name: [one for one in inside[name] if not any(one in below(graph, other) for other in inside[name] if other != one)]
            for name in names}


def rows(edges):
    """Returns the crates of a group in rows, from above: a crate is above all that it uses."""
    level = {}

    def of(name):
        if name not in level:
            level[name] = 1 + max([of(one) for one in edges[name]], default=-1)
        return level[name]

    for name in edges:
        of(name)
    return [[name for name in edges if level[name] == one] for one in range(max(level.values()), -1, -1)]


def size(layout):
    return (max(len(row) for row in layout) * (WIDE + GAP) + 2 * EDGE - GAP, len(layout) * ROW + 2 * EDGE + 2)


def group_picture(graph, group, names, x, y, width):
    """Draws a group at a place. Returns its lines and its height."""
    edges = direct(graph, names)
    layout = rows(edges)
    height = size(layout)[1]
    out = [f'<rect x="{x}" y="{y}" width="{width}" height="{height}" rx="8" fill="{FILL[group]}"/>',
           f'<text x="{x + EDGE}" y="{y + 16}" class="t">{html.escape(TITLES[group])}</text>']
    place = {}
    for at, row in enumerate(layout):
        left = x + (width - len(row) * (WIDE + GAP) + GAP) / 2
        for column, name in enumerate(row):
            place[name] = (left + column * (WIDE + GAP), y + EDGE + 12 + at * ROW)
    for name in names:
        for one in edges[name]:
            a, b = place[name], place[one]
            out.append(f'<line x1="{a[0] + WIDE / 2:g}" y1="{a[1] + HIGH:g}" x2="{b[0] + WIDE / 2:g}" y2="{b[1]:g}"/>')
    for name in names:
        left, top = place[name]
        about = html.escape(sentence(first_comment(root(name))))
        out.append(f'<a href="../{root(name)}"><title>{name}: {about}</title><rect x="{left:g}" y="{top:g}" width="{WIDE}" height="{HIGH}" '
                   f'rx="4" class="c"/><text x="{left + WIDE / 2:g}" y="{top + 16:g}" class="n">{name.removeprefix("cedar_")}</text></a>')
    return out, height


def root(name):
    path = f'crates/{name}/src/lib.rt'
    return path if os.path.exists(path) else f'crates/{name}/src/main.rt'


def picture():
    graph = uses()
    names = groups(graph)
    sizes = {group: size(rows(direct(graph, names[group]))) for group in GROUPS}
    left = max(sizes['Program'][0], sizes['Entities'][0])
    right = max(sizes['C'][0], sizes['Policies'][0])
    width = max(left + right + 40, sizes['Base'][0])
    right = width - left - 40
    out, y = [], 0
    for pair in (('Program', 'C'), ('Entities', 'Policies')):
        heights = []
        for group, x, wide in zip(pair, (0, left + 40), (left, right)):
            lines, height = group_picture(graph, group, names[group], x, y, wide)
            out += lines
            heights.append(height)
        bottom = y + max(heights)
        for group, x, wide, height in zip(pair, (0, left + 40), (left, right), heights):
            out.append(arrow(x + wide / 2, y + height, x + wide / 2, bottom + 28))
        if pair[0] == 'Program':
            out.append(arrow(left - 40, y + heights[0], left + 80, bottom + 28))
            out.append(arrow(left + 80, y + heights[1], left - 40, bottom + 28))
        y = bottom + 30
    lines, height = group_picture(graph, 'Base', names['Base'], 0, y, width)
    out += lines
    head = (f'<svg xmlns="http://www.w3.org/2000/svg" viewBox="0 0 {width:g} {y + height:g}" font-family="sans-serif" font-size="12">',
            '<title>The layers of the crates</title>',
            '<style>.c{fill:#fff;stroke:#5f6368}.n{text-anchor:middle}.t{font-weight:bold}line{stroke:#9aa0a6}.a{stroke:#3c4043;stroke-width:2}'
            '</style>',
            '<marker id="h" markerWidth="7" markerHeight="7" refX="6" refY="3" orient="auto"><path d="M0,0 L6,3 L0,6 z"/></marker>')
    return '\n'.join([*head, *out, '</svg>']) + '\n'


def arrow(x1, y1, x2, y2):
    return f'<line x1="{x1:g}" y1="{y1:g}" x2="{x2:g}" y2="{y2:g}" class="a" marker-end="url(#h)"/>'


def is_current():
    """Returns whether the stored picture is the picture of the present crates.txt."""
    with open(PICTURE, encoding='utf-8') as stored:
        return stored.read() == picture()


if __name__ == '__main__':
    with open(PICTURE, 'w', encoding='utf-8') as written:
        written.write(picture())
