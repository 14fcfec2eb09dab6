"""Appends the documentation examples in `examples.txt` to the comments of their calls.

An example for several calls of a type is at the first of them. The others refer to it.
"""
import os
import re
import textwrap

HERE = os.path.dirname(os.path.abspath(__file__))
INDENT = re.compile(r'( *)pub fn (\w+)')


def entries(path=os.path.join(HERE, 'examples.txt')):
    """Reads for each type and call the lines of its example, and the names of the calls with this example."""
    found, calls, lines = {}, [], []
    with open(path, encoding='utf-8') as f:
        lines_of_file = f.read().split('\n') + ['@ end: -']
    for entry in lines_of_file:
        if entry.startswith('@ '):
            while lines and not lines[-1]:
                lines.pop()
            for call in calls:
                found[call] = (lines, [other[1] for other in calls])
            lines = []
            owner, _, names = entry[2:].partition(':')
            calls = [(owner, name) for name in names.split()]
        elif calls and not re.match(r'# ?----|# [A-Z]', entry):
            lines.append(entry)
    return found


def names_of_module(module, path=os.path.join(HERE, '../../rust/src/lib.rs')):
    """Returns the public names of a module of the package, without those of its own modules."""
    with open(path, encoding='utf-8') as f:
        body = re.search(rf'^pub mod {module} {{\n(.*?)^}}', f.read(), re.M | re.S).group(1)
    body = re.sub(r'^    pub mod .*?^    }', '', body, flags=re.M | re.S)
    lists = re.findall(r'pub use [\w:]+::(?:{([^}]*)}|(\w+));', body)
    return {name for several, one in lists for name in re.findall(r'\w+', several or one)}


MODULES = {module: names_of_module(module) for module in ('ast', 'entities')}


def uses_of(lines):
    """Returns the `use` lines of an example: for the names of the modules that it has, and then its own."""
    own = [line for line in lines if line.startswith('use ')]
    code = re.sub(r'r#".*?"#|"(?:\\.|[^"\\])*"|//.*', '', '\n'.join(line for line in lines if line not in own))
    words = set(re.findall(r'(?<![\w:])\w+', code))
    uses = []
    for module, names in MODULES.items():
        used = sorted(names & words, key=lambda name: (name[0].islower(), name))
        if len(used) == 1:
            uses.append(f'use cedar_store::{module}::{used[0]};')
        elif used:
            uses += wrapped(f'use cedar_store::{module}::', used)
    return uses + own


def wrapped(path, names):
    """Returns the `use` of several names, in lines of at most 100 columns."""
    line = f'{path}{{{", ".join(names)}}};'
    if len(line) <= 100:
        return [line]
    text = textwrap.wrap(', '.join(names) + ',', 100, initial_indent='    ', subsequent_indent='    ')
    return [f'{path}{{', *text, '};']


def comment(lines, indent):
    """Returns an example as lines of a comment."""
    uses, code = uses_of(lines), [line for line in lines if not line.startswith('use ')]
    while code and not code[0]:
        del code[0]
    code = uses + [''] * bool(uses) + code
    if any('?' in re.sub(r'"[^"]*"', '', line) for line in lines):
        code.append('# Ok::<(), Box<dyn std::error::Error>>(())')
    return [f'{indent}///', f'{indent}/// ```'] + [f'{indent}/// {line}'.rstrip() for line in code] + [f'{indent}/// ```']


def calls_of(source):
    """Iterates over the lines of a file. With each line returns its type and call, if it begins a public function with a
    comment, and its indentation.
    """
    owner, before = '-', ''
    for line in source.split('\n'):
        impl = re.match(r'impl(?:<.*?>)? (\w+)(?:<.*>)? ?(?:\{|where|$)', line)
        if impl:
            owner = impl.group(1)
        elif line == '}':
            owner = '-'
        call = INDENT.match(line)
        key = (owner if call and call.group(1) else '-', call.group(2)) if call else None
        is_commented = before.startswith('///') and key and bool(call.group(1)) == (key[0] != '-')
        yield line, key if is_commented else None, call.group(1) if call else ''
        if not line.strip().startswith('#['):
            before = line.strip()


def with_examples(source, found, existing):
    """Returns a file with its examples. `existing` has the public calls of all files."""
    out = []
    own = {key for _, key, _ in calls_of(source) if key}
    for line, key, indent in calls_of(source):
        if key in found:
            lines, names = found[key]
            known = own if key[0] == '-' else existing
            first = next(name for name in names if (key[0], name) in known)
            at = len(out)
            while out[at - 1].strip().startswith('#['):
                at -= 1
            if first == key[1]:
                out[at:at] = comment(lines, indent)
            else:
                path = first if key[0] == '-' else f'Self::{first}'
                out[at:at] = [f'{indent}///', f'{indent}/// [`{path}`] has an example.']
        out.append(line)
    return '\n'.join(out)
