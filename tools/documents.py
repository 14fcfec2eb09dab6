#!/usr/bin/env python3
"""Checks that the pages are consistent with the files of the repository. Run it at the top of the repository. It proves
nothing.

The last line is `N passed, M failed`. It checks:

- A link to a file leads to an existing file, and a link to a heading to an existing heading.
- A path in backticks that begins with a folder of the repository exists.
- A file that a row of docs/ARCHITECTURE.md names after a crate belongs to the crate, and no other file of the crate has
  this name.
- tools/map.py and tools/definitions.py run. Each definition and each file of a crate has a comment at the top.
- The code that docs/GUIDE.md quotes is in the guide's program in the same language, in `cedar_examples`, or in the
  output of an example.
- docs/hierarchy.svg draws the uids and the edges of the quoted output.
- docs/layers.svg is the picture of crates.txt, docs/chart-*.svg those of the figures in bench.
- The crates in the table of docs/ARCHITECTURE.md and in the headings of docs/PROVED.md are exactly those in crates.txt,
  without tests. Those in tools/proof_times.txt are exactly those in crates.txt.
- docs/PROVED.md lists exactly the public functions that have a condition.
- A page that describes crates names only existing crates.
"""
import glob
import html
import os
import re
import subprocess
import sys

sys.dont_write_bytecode = True
sys.path.append(os.path.join(os.path.dirname(os.path.dirname(os.path.abspath(__file__))), 'bench'))
import charts
import definitions
import layers
import map as files_by_comment

PASSED, FAILED = [0], []
FOLDERS = ('docs', 'crates', 'callers', 'tools', 'bench', 'rust', '.ci')


def check(fault, is_valid):
    if is_valid:
        PASSED[0] += 1
    else:
        FAILED.append(fault)
        print(f'documents: FAILED: {fault}')


def read(path):
    with open(path, encoding='utf-8') as text:
        return text.read()


def pages():
    found = glob.glob('*.md') + glob.glob('docs/*.md') + glob.glob('callers/**/*.md', recursive=True) + glob.glob('rust/*.md')
    return sorted(path for path in found if '/out/' not in path and '/target/' not in path)


def anchors(text):
    """Returns the names by which the headings of a page are linked."""
    heads = re.findall(r'(?m)^#+ (.*)$', text)
    return {re.sub(r'[^\w\- ]', '', head.lower()).replace(' ', '-') for head in heads}


def check_links(page, text):
    for target in re.findall(r'\]\(([^)\s]+)\)', re.sub(r'(?s)```.*?```', '', text)):
        if re.match(r'[a-z]+:', target):
            continue
        path, _, anchor = target.partition('#')
        file = os.path.normpath(os.path.join(os.path.dirname(page), path)) if path else page
        check(f'{page} links {target}, which does not exist', os.path.exists(file))
        if anchor and file.endswith('.md') and os.path.exists(file):
            check(f'{page} links {target}: the heading does not exist', anchor in anchors(read(file)))


def check_paths(page, text):
    for path in sorted(set(re.findall(r'`((?:%s)/[\w./-]+)`' % '|'.join(map(re.escape, FOLDERS)), text))):
        if '/out' not in path and '/target' not in path:
            check(f'{page} names {path}, which does not exist', os.path.exists(path.rstrip('/.')))


def check_rows():
    """Checks the files that the rows of docs/ARCHITECTURE.md name.

    In a row, the files after a crate's name and a colon belong to the crate, up to the next crate's name. A file that
    is named elsewhere, without a path, belongs to any crate.
    """
    text = read('docs/ARCHITECTURE.md')
    names = {os.path.basename(path) for path in glob.glob('crates/**/*.*', recursive=True)}
    for file in sorted(set(re.findall(r'`(\w+\.(?:rt|antt))`', text))):
        check(f'docs/ARCHITECTURE.md names {file}, which is in no crate', file in names)
    for row in re.findall(r'(?m)^\| .*$', text[text.index('## Where to change what'):]):
        unassigned = re.findall(r'`([\w./+]+\.(?:rt|antt))`', re.split(r'`cedar_\w+`:', row)[0])
        check(f'docs/ARCHITECTURE.md names {unassigned} without a crate before it', not unassigned)
        for crate, cell in re.findall(r'`(cedar_\w+)`:(.*?)(?=`cedar_\w+`:|\||$)', row):
            paths = glob.glob(f'crates/{crate}/**', recursive=True)
            check(f'docs/ARCHITECTURE.md names files of {crate}, which is not a crate', crate in crates())
            for file in re.findall(r'`([\w./+]+\.(?:rt|antt)|stdin|stdout)`', cell):
                if not file.startswith(('callers/', 'rust/', 'tools/', 'docs/')):
                    count = sum(path.endswith(f'/{file}') and '/out/' not in path for path in paths)
                    check(f'docs/ARCHITECTURE.md names {file} of {crate}, which has {count} such files', count == 1)


def succeeds(*words):
    result = subprocess.run([sys.executable, '-B', *words], stdout=subprocess.PIPE, stderr=subprocess.STDOUT, check=False)
    return result.returncode == 0 and result.stdout != b''


def check_comments():
    check('docs/layers.svg is not the picture of crates.txt: run python3 tools/layers.py', layers.is_current())
    check('docs/chart-*.svg are not the charts of the figures in bench: run python3 bench/charts.py', charts.is_current())
    for script in ('tools/map.py', 'tools/definitions.py'):
        for words in ([], ['cedar_entities']):
            check(f'the command `{script} {" ".join(words)}` fails', succeeds(script, *words))
    uncommented_definitions, uncommented_files = len(definitions.uncommented()), len(files_by_comment.uncommented())
    check(f'{uncommented_definitions} definitions have no comment: tools/definitions.py --uncommented lists them', uncommented_definitions == 0)
    check(f'{uncommented_files} files have no first comment: tools/map.py --uncommented lists them', uncommented_files == 0)


def squeezed(text):
    """Returns the text without comment marks and with single spaces, so that line breaks do not matter."""
    return re.sub(r'\s+', ' ', re.sub(r'(?m)^\s*///?', ' ', text)).strip()


def check_quote(page, block, paths):
    """Checks that each part of a block is in one of the files. Empty lines separate the parts."""
    code = squeezed('\n'.join(read(path) for path in paths))
    for part in re.split(r'\n\s*\n', block.strip('\n')):
        first = part.strip().split('\n')[0]
        check(f'{page} quotes code that is not in the sources: {first[:70]}', squeezed(part) in code)


# The files that docs/GUIDE.md quotes, by language.
GUIDE = {
    'rust': ['rust/examples/guide.rs', *sorted(glob.glob('crates/cedar_examples/src/*.rt'))],
    'python': ['callers/python/guide.py'],
    'c': ['callers/c/guide.c'],
    'text': ['rust/examples/guide.out', 'callers/python/guide.out', 'callers/c/guide.out'],
    'dot': ['rust/examples/graphviz.out'],
}


def check_guide():
    blocks = re.findall(r'(?ms)^```(\w*)\n(.*?)^```$', read('docs/GUIDE.md'))
    for language in GUIDE:
        check(f'docs/GUIDE.md quotes nothing in {language}', language in [name for name, _ in blocks])
    for language, block in blocks:
        check(f'docs/GUIDE.md has a block in {language or "no language"}, which has no files', language in GUIDE)
        check_quote('docs/GUIDE.md', block, GUIDE.get(language, []))
    lines = re.findall(r'(?m)^ +(".*?)(?: \[.*)?;$', read('rust/examples/graphviz.out'))
    expected = {line.replace('\\"', '\0').replace('"', '').replace('\0', '"') for line in lines}
    drawn = re.findall(r'<title>(.*?)</title>', read('docs/hierarchy.svg'))
    drawn = {html.unescape(title).replace('->', ' -> ') for title in drawn if not title.startswith('cluster ')} - {'store'}
    check('docs/hierarchy.svg and rust/examples/graphviz.out show different stores', drawn == expected)


def crates():
    return files_by_comment.crates()


def check_crates():
    """Checks that the lists of crates in the pages are the list of crates.txt."""
    all_names, tests = set(crates()), {name for name in crates() if name.endswith('_tests')}
    table = re.search(r'(?ms)^\| Crate \| Has \|\n(.*?)\n\n', read('docs/ARCHITECTURE.md'))[1]
    proved = re.search(r'(?ms)^## What is proved\n(.*?)^## ', read('docs/PROVED.md'))[1]
    heads = re.findall(r'(?m)^### (.*)$', proved) + [proved[proved.index('### Programs and tests'):]]
    firsts = [row.split(' | ')[0] for row in table.split('\n')]
    times = re.findall(r'(?m)^(cedar_\w+) ', read('tools/proof_times.txt'))
    lists = (
        ('docs/ARCHITECTURE.md', set(re.findall(r'`(cedar_\w+)`', ' '.join(firsts))), tests),
        ('docs/PROVED.md', set(re.findall(r'`(cedar_\w+)`', ' '.join(heads))) - tests, tests),
        ('tools/proof_times.txt', set(times), set()),
    )
    for page, named, left_out in lists:
        expected = all_names - left_out
        check(f'{page} does not list {sorted(expected - named)} of crates.txt', expected <= named)
        check(f'{page} lists {sorted(named - all_names)}, which are not in crates.txt', named <= all_names)
    # names that look like crates, but are functions of the library for C
    exports = set(re.findall(r'\b(cedar_\w+)\(', ''.join(map(read, glob.glob('callers/c/cedar/*.h')))))
    for page in ('README.md', 'CONTRIBUTING.md', 'docs/ARCHITECTURE.md', 'docs/PROVED.md', 'docs/GUIDE.md'):
        named = set(re.findall(r'`(cedar_\w+)`', read(page))) - all_names - exports
        check(f'{page} names {sorted(named)}, which are not crates', not named)


def conditions():
    """Returns the public functions with a `requires` clause, by crate. Crates of tests are left out."""
    found = {}
    for path in glob.glob('crates/*/src/**/*.rt', recursive=True):
        crate = path.split('/')[1]
        if crate.endswith('_tests') or crate in ('cedar_test_helpers', 'cedar_alloc_failures'):
            continue
        text = read(path)
        for begin in re.finditer(r'(?m)^ *pub (?:const |unsafe |extern "C" )*fn (\w+)', text):
            head = re.split(r'(?:\n *| )\{\n', text[begin.start():], maxsplit=1)[0]
            if re.search(r'\n *requires\b', head):
                found.setdefault(crate, set()).add(begin[1])
    return found


def check_conditions():
    """Checks that docs/PROVED.md lists exactly the public functions with a condition. `Trait::name` is a method of a
    trait.
    """
    listed = {crate: {name for name in re.findall(r'`(?:[A-Z]\w*::)?([a-z]\w*)`', re.sub(r'`TC\w+::\w+`', '', names))}
              for crate, names in re.findall(r'(?m)^\| `(cedar_\w+)` \| (.*) \|$', read('docs/PROVED.md'))}
    found = conditions()
    for crate in sorted(found.keys() | listed.keys()):
        differing = found.get(crate, set()) ^ listed.get(crate, set())
        check(f'docs/PROVED.md and the sources of {crate} disagree on functions with a condition: {sorted(differing)}', not differing)


def main():
    for page in pages():
        text = read(page)
        check_links(page, text)
        check_paths(page, text)
    check_rows()
    check_comments()
    check_guide()
    check_crates()
    check_conditions()
    print(f'{PASSED[0]} passed, {len(FAILED)} failed')
    return 1 if FAILED else 0


if __name__ == '__main__':
    sys.exit(main())
