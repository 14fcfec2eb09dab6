#!/usr/bin/env python3
"""Runs the examples in the comments of the package `cedar-store` with the crate `cedar-store-proved`.

Both have the same public names, so each example is compiled unchanged, under the name of the package.
`doc_examples.txt` lists the examples with calls that the crate does not have.

    callers/rust/doc_examples.py OUT [--list]

OUT is a folder for the generated crate. `CEDAR_LIBRARY_DIR` names the folder of the library, as for the crate itself.
With `--list` it prints the examples that do not compile, in the form of doc_examples.txt. The last line is `N passed, M
failed`.
"""
import glob
import json
import os
import re
import subprocess
import sys

HERE = os.path.dirname(os.path.abspath(__file__))
PACKAGE = os.path.join(HERE, '..', '..', 'rust', 'src')
ITEM = re.compile(r'^\s*(?:#\[.*\]\s*)?(?:pub )?(?:const |unsafe )?(?:fn|struct|enum|trait|type|mod|impl|const|static|use)\b[^\w]*(\w*)')


class Example:
    """An example: its file and item, its lines, and the name of its module."""

    def __init__(self, place, lines):
        self.place, self.lines = place, lines
        self.module = 'at_' + re.sub(r'\W+', '_', place)

    def text(self):
        """Returns the module that runs the example as rustdoc would."""
        body = '\n'.join(self.lines)
        if re.search(r'^\s*fn main\(', body, re.M):
            return f'mod {self.module} {{\n{body}\n#[test]\nfn example() {{ let _ended = main(); }}\n}}\n'
        uses = [line for line in self.lines if re.match(r'#!\[', line)]
        rest = '\n'.join(line for line in self.lines if line not in uses)
        ends = '-> Result<(), Box<dyn std::error::Error>> ' if re.search(r'^Ok::<', rest, re.M) else ''
        return f'mod {self.module} {{\n#[test]\nfn example() {ends}{{\n{rest}\n}}\n}}\n'


def examples_of(path, name):
    """Returns the examples of one file, in order."""
    found, waiting, inside = [], [], None
    with open(path, encoding='utf-8') as text:
        for line in text:
            comment = re.match(r'^\s*//[/!] ?(.*)$', line)
            if comment and inside is None and comment[1].strip() == '```':
                inside = []
            elif comment and inside is not None and comment[1].strip() == '```':
                waiting.append(inside)
                inside = None
            elif comment and inside is not None:
                inside.append(re.sub(r'^(\s*)# ?(?!\[)', r'\1', comment[1]))
            elif not comment and waiting and line.strip() and not line.strip().startswith('#['):
                item = ITEM.match(line)
                found += [(f'{name} {item[1] if item else "?"}', lines) for lines in waiting]
                waiting = []
    counted, numbered = {}, []
    for place, lines in found:
        counted[place] = counted.get(place, 0) + 1
        numbered.append(Example(place if counted[place] == 1 else f'{place} {counted[place]}', lines))
    return numbered


def all_examples():
    """Returns all examples, in the order of their files."""
    found = []
    for path in sorted(glob.glob(os.path.join(PACKAGE, '**', '*.rs'), recursive=True)):
        found += examples_of(path, os.path.relpath(path, PACKAGE)[:-len('.rs')])
    return found


def write(out, examples):
    """Writes the crate that runs the given examples."""
    os.makedirs(os.path.join(out, 'src'), exist_ok=True)
    with open(os.path.join(out, 'Cargo.toml'), 'w', encoding='utf-8') as text:
        text.write('[package]\nname = "doc-examples"\nversion = "0.1.0"\nedition = "2021"\n\n[workspace]\n\n[dependencies]\n'
                   f'cedar-store = {{ package = "cedar-store-proved", path = "{HERE}" }}\n')
    with open(os.path.join(out, 'src', 'lib.rs'), 'w', encoding='utf-8') as text:
        text.write('#![cfg(test)]\n#![allow(unused, dead_code)]\n' + '\n'.join(example.text() for example in examples))


def failing(out, examples):
    """Returns the examples that do not compile, found by the lines of rustc's errors."""
    result = subprocess.run(['cargo', 'test', '-q', '--offline', '--no-run', '--message-format=json'],
                            cwd=out, capture_output=True, text=True, check=False)
    starts, line = [], 3
    for example in examples:
        starts.append((line, example))
        line += example.text().count('\n') + 1
    failed = set()
    for message in result.stdout.split('\n'):
        fields = json.loads(message) if message.startswith('{') else {}
        if fields.get('reason') != 'compiler-message' or fields['message']['level'] != 'error':
            continue
        for span in fields['message']['spans']:
            if span['is_primary']:
                failed.add([example for start, example in starts if start <= span['line_start']][-1])
    if result.returncode and not failed:
        sys.exit(result.stdout[-2000:] + result.stderr[-4000:])
    return failed


def print_failing(out, examples):
    """Prints the examples that do not compile. Compiles repeatedly, because the first errors hide later ones."""
    failed = set()
    while True:
        rest = [example for example in examples if example not in failed]
        write(out, rest)
        newly_failed = failing(out, rest)
        if not newly_failed:
            break
        failed |= newly_failed
    for example in examples:
        if example in failed:
            print(example.place)


def main():
    out, examples = sys.argv[1], all_examples()
    if sys.argv[2:] == ['--list']:
        print_failing(out, examples)
        return
    with open(os.path.join(HERE, 'doc_examples.txt'), encoding='utf-8') as text:
        excluded = [line.rstrip('\n') for line in text if line.strip() and not line.startswith('#')]
    places = {example.place for example in examples}
    missing = [place for place in excluded if place not in places]
    for place in missing:
        print(f'doc_examples.txt: no example at {place}')
    write(out, [example for example in examples if example.place not in excluded])
    result = subprocess.run(['cargo', 'test', '-q', '--offline', '--no-fail-fast'], cwd=out, capture_output=True, text=True, check=False)
    counts = re.search(r'^test result: \w+\. (\d+) passed; (\d+) failed', result.stdout, re.M)
    if counts is None:
        print(result.stderr[-4000:])
        print(f'0 passed, {len(examples) - len(excluded) or 1} failed')
        sys.exit(1)
    if result.returncode:
        print(result.stdout[-4000:])
    print(f'{counts[1]} passed, {int(counts[2]) + len(missing)} failed')
    sys.exit(1 if result.returncode or missing else 0)


main()
