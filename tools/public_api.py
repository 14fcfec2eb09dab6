#!/usr/bin/env python3
"""Lists the public API of the Rust package in `rust/public-api.txt`, so that a change of it is seen.

usage: tools/public_api.py [--check]

`--check` writes nothing. It prints the lines that differ, and fails if there are any.

Each line has a public path and a declaration: a type with what it derives, a variant, a public field, a function, or a
trait that a type implements. A type with several paths is listed at the shortest one. The tool reads the sources, which rustfmt has formatted: items begin at column 0, and
members at column 4. What `src/lib.rs` exports is public.
"""
import difflib
import glob
import os
import re
import sys

TOP = os.path.dirname(os.path.dirname(os.path.abspath(__file__)))
SRC = os.path.join(TOP, 'rust', 'src')
LIST = os.path.join(TOP, 'rust', 'public-api.txt')
ITEM = re.compile(r'pub (?:const )?(struct|enum|trait|type|fn|const) (\w+)')
IMPL = re.compile(r'impl(?:<.*?>)? (?:(.*) for )?&?(?:\'\w+ )?(?:\w+::)*(\w+)')


def read(path):
    with open(path, encoding='utf-8') as f:
        return f.read()


def without_comments(text):
    """Returns a text without its line comments."""
    return re.sub(r'^ *//.*\n', '', text, flags=re.M)


def exports():
    """Returns the public paths of the names in `lib.rs`: for each name and the module of its source."""
    out, stack = {}, []
    text = without_comments(read(os.path.join(SRC, 'lib.rs')))
    for match in re.finditer(r'pub mod (\w+) \{|pub use ([^;]*);|^( *)\}', text, re.M):
        module, use, close = match.groups()
        if module:
            stack.append(module)
        elif use is None:
            stack = stack[:len(close) // 4]
        else:
            for source, name, public in named(' '.join(use.split())):
                out.setdefault((source, name), []).append('::'.join([*stack, public]))
    return out


def defined(public):
    """Returns the public paths with the module that defines each name, which may differ from the one that exports it."""
    modules = {}
    for path in glob.glob(os.path.join(SRC, '*', '*.rs')):
        for _, lines in items(read(path)):
            item = ITEM.match(lines[0])
            if item:
                modules.setdefault(item.group(2), set()).add(os.path.relpath(path, SRC).split(os.sep)[0])
    out = {}
    for (module, name), paths in public.items():
        known = modules.get(name, {module})
        out.setdefault((module if module in known else min(known), name), []).extend(paths)
    return {key: sorted(paths, key=lambda path: (path.count('::'), path)) for key, paths in out.items()}


def named(use):
    """Iterates over the items of a `use`: the first module of the source, the name, and the public name."""
    if use.startswith('super::'):
        return
    head, _, tail = use.partition('{')
    items = tail.rstrip('} ,').split(',') if tail else [head]
    for item in items:
        path = (head + item.strip() if tail else item).replace('crate::', '')
        path, _, alias = path.partition(' as ')
        parts = path.strip().split('::')
        yield parts[0], parts[-1], alias.strip() or parts[-1]


def items(text):
    """Iterates over the items of a file, each with its attributes and its body."""
    lines, attributes = without_comments(text).split('\n'), []
    at = 0
    while at < len(lines):
        line = lines[at]
        if line.startswith('#['):
            attributes.append(line)
        elif line and not line.startswith((' ', '}', ')')):
            end, is_block = at, line.endswith('{')
            while not (lines[end].startswith('}') or not is_block and lines[end].endswith((';', '}'))):
                end += 1
                is_block = is_block or lines[end].endswith('{')
            yield attributes, lines[at:end + 1]
            attributes, at = [], end
        at += 1


def declaration(lines):
    """Returns the declaration at the begin of some lines: up to its body or its value."""
    out = []
    for line in lines:
        out.append(line.strip())
        if line.endswith(('{', ';', '}')) or ' = "' in line:
            break
    return tidy(re.sub(r' ?\{\}?$|;$| = ".*', '', ' '.join(out)))


def tidy(text):
    """Returns a text of several lines as rustfmt would write it on one line."""
    text = re.sub(r'\s+', ' ', text)
    text = re.sub(r'([(<]) ', r'\1', text)
    return re.sub(r',? ?([)>])', r'\1', text.replace('->', '\0')).replace('\0', '->').rstrip(', ')


def members(lines, kind):
    """Iterates over the declarations of the members in the body of an item."""
    at = 1
    while at < len(lines) - 1:
        end = at
        if re.match(r' {4}[^ }#)>]', lines[at]):
            if kind == 'enum' or kind == 'struct':
                while not re.match(r' {4}\S.*,$', lines[end]):
                    end += 1
                if kind == 'enum' or lines[at].strip().startswith('pub '):
                    yield tidy(' '.join(line.strip() for line in lines[at:end + 1])).replace(', }', ' }')
            elif kind == 'trait' and lines[at].strip() not in ('where', '{') or lines[at].strip().startswith('pub '):
                yield declaration(lines[at:])
        at = end + 1


def derived(trait, head):
    """Returns the implementation that a type with this declaration derives."""
    name, generics = re.match(r'pub \w+ (\w+)(<.*?>)?', head).groups()
    parameters = [re.split('[:=]', part)[0].strip() for part in (generics or '')[1:-1].split(',') if part]
    bounded = [part if part.startswith("'") else f'{part}: {trait}' for part in parameters]
    both = [f'<{", ".join(parts)}>' if parts else '' for parts in (bounded, parameters)]
    return f'impl{both[0]} {trait} for {name}{both[1]}'


def lines_of(path, public, names):
    """Iterates over the lines of the list for a source file."""
    crate = os.path.relpath(path, SRC).split(os.sep)[0]
    paths = lambda name, module=crate: public.get((module, name), [])
    for attributes, lines in items(read(path)):
        head = declaration(lines)
        item, impl = ITEM.match(lines[0]), IMPL.match(head)
        derives = re.findall(r'\w+', ' '.join(a[8:] for a in attributes if a.startswith('#[derive')))
        mark = '#[non_exhaustive] ' if '#[non_exhaustive]' in attributes else ''
        if item:
            kind, name = item.groups()
            for other in paths(name)[1:]:
                yield f'{other}: the same as {paths(name)[0]}'
            for at in paths(name)[:1]:
                yield f'{at}: {mark}{head}'
                for trait in derives:
                    yield f'{at}: {derived(trait, head)}'
                if kind in ('struct', 'enum', 'trait') and lines[0].endswith('{'):
                    for member in members(lines, kind):
                        yield f'{at}: {member}'
        elif impl:
            trait, name = impl.groups()
            sources = names.get(name, set())
            module = crate if crate in sources or len(sources) != 1 else next(iter(sources))
            for at in paths(name, module)[:1]:
                if trait:
                    yield f'{at}: {head.replace("fmt::", "")}'
                else:
                    for member in members(lines, 'impl'):
                        yield f'{at}: {member}'


def api():
    """Returns the text of the list."""
    public = defined(exports())
    names = {}
    for module, name in public:
        names.setdefault(name, set()).add(module)
    out = set()
    for path in sorted(glob.glob(os.path.join(SRC, '*', '*.rs'))):
        if not path.endswith('_tests.rs') and os.sep + 'bin' + os.sep not in path:
            out |= set(lines_of(path, public, names))
    found = {line.split(': ')[0] for line in out}
    missing = sorted(path for all_of in public.values() for path in all_of if path not in found)
    if missing:
        sys.exit(f'public_api: no declaration was found of {", ".join(missing)}')
    return '\n'.join(sorted(out)) + '\n'


def main():
    if sys.argv[1:] not in ([], ['--check']):
        sys.exit(__doc__)
    now = api()
    if not sys.argv[1:]:
        with open(LIST, 'w', encoding='utf-8') as f:
            f.write(now)
        print(f'{LIST}: {now.count(chr(10))} lines')
        return
    differences = list(difflib.unified_diff(read(LIST).split('\n'), now.split('\n'), 'stored', 'now', n=0, lineterm=''))
    if differences:
        print('\n'.join(differences))
        print('The public API changed. `python3 tools/public_api.py` writes the new list.')
        sys.exit(1)
    print(f'the public API is as stored: {now.count(chr(10))} lines')


if __name__ == '__main__':
    main()
