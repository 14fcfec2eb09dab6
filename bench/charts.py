#!/usr/bin/env python3
"""Measures the program of the package in Rust at several sizes, and draws the charts of docs/PERFORMANCE.md.

    python3 bench/charts.py measure    measures by bench/run, and writes the figures to bench/figures.txt
                                       (cargo build --release -F cli in rust first)
    python3 bench/charts.py            draws docs/chart-*.svg from bench/figures.txt and bench/original.txt

A line of a file of figures has a kind of input, its size, million instructions and the peak memory in MB; `-` is a figure
that was not measured, or a peak that is less than Python's own. `./test` fails if a chart is not the one of the present figures.
"""
import math
import os
import re
import subprocess
import sys

TOP = os.path.dirname(os.path.dirname(os.path.abspath(__file__)))
SIZES = {
    'chain': (500, 1000, 2000, 4000), 'tree': (1000, 10_000, 100_000), 'flat': (1000, 10_000, 100_000),
    'edits': (100, 1000, 10_000), 'sliced': (1000, 10_000), 'batch': (1000, 2000, 4000),
    'policies': (2500, 5000, 10_000), 'unlinks': (2500, 5000, 10_000), 'merge': (2500, 5000, 10_000), 'bigmerge': (5000, 10_000, 20_000),
}
CHARTS = {
    'building': ('Building a store', 'million instructions', 0, ('chain', 'tree', 'flat')),
    'memory': ('Peak memory of building a store', 'MB', 1, ('chain', 'tree', 'flat')),
    'editing': ('1,000 edits of a tree; edits of many entities', 'million instructions', 0, ('edits', 'batch', 'sliced')),
    'policies': ('Policy sets: adding and linking, unlinking, merging', 'million instructions', 0, ('policies', 'unlinks', 'merge', 'bigmerge')),
}
COLOURS = ('#1a73e8', '#d93025', '#188038', '#9334e6')
WIDTH, HEIGHT, LEFT, RIGHT, TOP_EDGE, BOTTOM = 640, 360, 64, 96, 40, 44


def read(path):
    """Returns the figures of a file: for each kind the sizes with both figures, or `None` in place of one."""
    found = {}
    with open(os.path.join(TOP, path), encoding='utf-8') as lines:
        for line in lines:
            if not line.startswith('#') and line.strip():
                kind, size, *figures = line.split()
                found.setdefault(kind, {})[int(size)] = [None if one == '-' else float(one) for one in figures]
    return found


def measure():
    """Measures all sizes, and writes the figures."""
    rows = []
    program = os.environ | {'BENCH_PROGRAM': os.path.join(TOP, 'rust', 'target', 'release', 'cedar-store')}
    for kind, sizes in SIZES.items():
        for size in sizes:
            command = [sys.executable, '-B', os.path.join(TOP, 'bench', 'run'), kind, str(size)]
            out = subprocess.run(command, check=True, stdout=subprocess.PIPE, env=program).stdout.decode()
            cells = [cell.strip() for cell in out.strip().split('\n')[-1].strip('|').split('|')]
            peak, instructions = (re.sub(r'[^\d.]', '', cell) or '-' for cell in cells[2:4])
            # a peak below Python's own is not the program's
            rows.append(f"{kind} {size} {instructions} {peak if peak != '-' and float(peak) > 20 else '-'}")
            print(rows[-1], flush=True)
    with open(os.path.join(TOP, 'bench', 'figures.txt'), 'w', encoding='utf-8') as out:
        out.write('# The package in Rust (release): kind, size, million instructions, peak MB (python3 bench/charts.py measure)\n')
        out.write('\n'.join(rows) + '\n')


def ticks(low, high):
    """Returns the powers of ten from below `low` to above `high`."""
    return [10 ** power for power in range(math.floor(math.log10(low)), math.ceil(math.log10(high)) + 1)]


def chart(title, unit, column, kinds, here, original):
    """Draws a chart with logarithmic axes: a line for each kind, and a dashed line for the original."""
    points = {}
    for kind in kinds:
        for name, figures in (('here', here), ('original', original)):
            line = sorted((size, values[column]) for size, values in figures.get(kind, {}).items() if values[column])
            if line:
                points[kind, name] = line
    every = [point for line in points.values() for point in line]
    across, up = ticks(min(x for x, _ in every), max(x for x, _ in every)), ticks(min(y for _, y in every), max(y for _, y in every))

    def x(value):
        return LEFT + (WIDTH - LEFT - RIGHT) * math.log(value / across[0]) / math.log(across[-1] / across[0])

    def y(value):
        return HEIGHT - BOTTOM - (HEIGHT - TOP_EDGE - BOTTOM) * math.log(value / up[0]) / math.log(up[-1] / up[0])

    out = [f'<svg xmlns="http://www.w3.org/2000/svg" viewBox="0 0 {WIDTH} {HEIGHT}" font-family="sans-serif" font-size="12">',
           f'<title>{title}</title>', f'<rect width="{WIDTH}" height="{HEIGHT}" fill="#fff"/>',
           f'<text x="{LEFT}" y="20" font-weight="bold">{title}</text>',
           f'<text x="{WIDTH - RIGHT}" y="20" text-anchor="end">● here   ○ - - the original</text>']
    for value in across:
        out.append(f'<line x1="{x(value):.1f}" y1="{TOP_EDGE}" x2="{x(value):.1f}" y2="{HEIGHT - BOTTOM}" stroke="#e0e0e0"/>')
        out.append(f'<text x="{x(value):.1f}" y="{HEIGHT - BOTTOM + 16}" text-anchor="middle">{value:,}</text>')
    for value in up:
        out.append(f'<line x1="{LEFT}" y1="{y(value):.1f}" x2="{WIDTH - RIGHT}" y2="{y(value):.1f}" stroke="#e0e0e0"/>')
        out.append(f'<text x="{LEFT - 6}" y="{y(value) + 4:.1f}" text-anchor="end">{value:,}</text>')
    out.append(f'<text x="{(LEFT + WIDTH - RIGHT) / 2:g}" y="{HEIGHT - 8}" text-anchor="middle">entities or policies</text>')
    out.append(f'<text x="14" y="{(TOP_EDGE + HEIGHT - BOTTOM) / 2:g}" text-anchor="middle" transform="rotate(-90 14 {(TOP_EDGE + HEIGHT - BOTTOM) / 2:g})">{unit}</text>')
    for (kind, name), line in points.items():
        colour = COLOURS[kinds.index(kind)]
        dash = ' stroke-dasharray="5 4"' if name == 'original' else ''
        path = ' '.join(f'{x(size):.1f},{y(value):.1f}' for size, value in line)
        out.append(f'<polyline points="{path}" fill="none" stroke="{colour}" stroke-width="2"{dash}/>')
        fill = '#fff' if name == 'original' else colour
        out += [f'<circle cx="{x(size):.1f}" cy="{y(value):.1f}" r="3" fill="{fill}" stroke="{colour}"><title>{kind} {size:,}, {name}: {value:g} {unit}</title></circle>'
                for size, value in line]
        if name == 'original' and (kind, 'here') in points:
            continue
        size, value = line[-1]
        out.append(f'<text x="{x(size) + 8:.1f}" y="{y(value) + 4:.1f}" fill="{colour}">{kind}</text>')
    return '\n'.join([*out, '</svg>']) + '\n'


def charts():
    """Returns the text of each chart by its path."""
    here, original = read('bench/figures.txt'), read('bench/original.txt')
    return {f'docs/chart-{name}.svg': chart(*parts, here, original) for name, parts in CHARTS.items()}


def is_current():
    """Returns whether the stored charts are those of the present figures."""
    for path, text in charts().items():
        with open(os.path.join(TOP, path), encoding='utf-8') as stored:
            if stored.read() != text:
                return False
    return True


def main(words):
    if words == ['measure']:
        measure()
    elif words:
        sys.exit('usage: charts.py [measure]')
    for path, text in charts().items():
        with open(os.path.join(TOP, path), 'w', encoding='utf-8') as out:
            out.write(text)


if __name__ == '__main__':
    main(sys.argv[1:])
