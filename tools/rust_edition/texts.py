"""Rewrites the text of a file: names become the names of Rust's std, and `use` items are recomputed."""
import re

from .trees import Group, after, code, identifiers, is_group, is_id, is_p, lex, parse, text

TYPES = [('Rc', 'Arc'), ('IndexMap', 'OrderedMap'), ('IndexSet', 'OrderedSet')]
CODE = [
    (r'\bW: fmt::Write,\s*', ''), (r',\s*W: fmt::Write\b(?=\s*[,>])', ''), (r'<W: fmt::Write>', ''),
    (r'Formatter<W>', "Formatter<'_>"),
    (r'\s*\+ Drop\b', ''), (r':\s*Drop\b(?=\s*[,>{=])', ''), (r'\bDrop \+ ', ''),
    (r'\bRcStr::from_str\b', 'Arc::<str>::from'), (r'\bRcStr::ptr_eq\b', 'Arc::ptr_eq'),
    (r'\bRcStr\b', 'Arc<str>'),
    (r'\bString::from_str\b', 'String::from'), (r'\bVecDeque::from_vec\b', 'VecDeque::from'),
    (r', Global>', '>'), (r'\bBox::into_inner\((\w+)\)', r'*\1'), (r'\bpush_reserved\b', 'push'),
    (r'BuildHasherDefault<FoldHasher>', 'KeyedState'), (r'\bBuildHasherDefault::new\(\)', 'KeyedState::default()'),
    (r'\bfinal fn\b', 'fn'), (r'let (\w+): KeyedState = ', r'let \1 = '),
    (r'\.values\(\)\.as_slice\(\)', '.values()'),
    (r'\b(?:mem::)?replace\(([^(),]*), Vec::new\(\)\)', r'mem::take(\1)'),
    (r'\buse std::mem::replace;', 'use std::mem;'),
    (r'\bErr\(ParseErrors::(\w+)\)(?= *(?:=>|\|))', r'Err(ParseErrors::\1(_))'),
]
# a trait is imported if a file uses one of these methods of it, a function or a constant if it uses one of these macros
METHODS = {
    'take': ['on_open', 'on_both'], 'opened': ['on_open', 'on_both'], 'CLOSED': ['on_both'],
    'StaticallyTyped': ['type_of'], 'TCNode': ['add_edge_to', 'add_edges_to', 'out_edges', 'get_key'], 'Hash': ['hash'],
    'Deref': ['deref'], 'Write': ['write_all', 'flush'], 'Read': ['read'],
}


def on_code(source, change):
    """Applies `change` to the parts of a text that are not comments."""
    out, stretch = [], ''
    for kind, value in lex(source):
        if kind == 'com':
            out += [change(stretch), value]
            stretch = ''
        else:
            stretch += value
    out.append(change(stretch))
    return ''.join(out)


def renamed(source, patterns=()):
    """Returns the text with the names of std."""
    def change(s):
        for a, b in list(CODE) + list(patterns):
            s = re.sub(a, b, s)
        for a, b in TYPES:
            s = re.sub(rf'\b{a}\b', b, s)
        return s
    source = on_code(source, change)
    return re.sub(r'^(\s*//.*)$', lambda m: comment_names(m.group(1)), source, flags=re.M)


def comment_names(line):
    """Returns a comment with the names that the package has."""
    line = re.sub(r'`Rc`', '`Arc`', line)
    line = re.sub(r'\bIndexMap\b', 'OrderedMap', line)
    return re.sub(r'\bIndexSet\b', 'OrderedSet', line)


def split_uses(nodes):
    """Returns the tree of a file without its private `use` items, and their paths."""
    out, paths, i = [], [], 0
    while i < len(nodes):
        n = nodes[i]
        previous = [x for x in out if not (not isinstance(x, Group) and x[0] == 'ws')][-1:]
        public = bool(previous) and (is_id(previous[0], 'pub') or is_group(previous[0], '('))
        if is_id(n, 'use') and not public:
            e = i
            while not is_p(nodes[e], ';'):
                e += 1
            paths += full_paths(nodes[i + 1:e])
            i = e + 1
            while i < len(nodes) and not isinstance(nodes[i], Group) and nodes[i][0] == 'ws':
                i += 1
            continue
        out.append(n)
        i += 1
    return out, paths


def full_paths(nodes):
    """Returns the paths of a `use` as lists. The last item has the form `name as alias` if there is an alias."""
    cs = code(nodes)
    head = []
    for k, n in enumerate(cs):
        if is_group(n, '{'):
            return [head + p for part in parts_of(n.items) for p in full_paths(part)]
        if is_id(n, 'as'):
            return [head[:-1] + [f'{head[-1]} as {cs[k + 1][1]}']]
        if is_id(n):
            head = head + [n[1]]
    return [head]


def parts_of(items):
    """Splits nodes at commas."""
    parts, current = [], []
    for n in items:
        if is_p(n, ','):
            parts.append(current)
            current = []
        else:
            current.append(n)
    parts.append(current)
    return [p for p in parts if code(p)]


def resolved(path, crate, crates):
    """Returns the path of a source as a path of the package; `None` if the package does not have the item."""
    joined = '::'.join(path)
    if path[0] == 'crate':
        return ['crate', crate] + path[1:]
    if path[0] in crates or path[0] == 'handwritten':
        return ['crate'] + path
    if joined.startswith(('std::alloc', 'std::boxed', 'std::marker::Model', 'memchr', 'std::random')):
        return None
    if path[-1] in ('BuildHasherDefault', 'FoldHasher', 'Equivalent'):
        return None
    if joined == 'thiserror::Error':
        return ['std', 'error', 'Error']
    if joined.startswith('std::rc'):
        return ['std', 'sync', 'Arc']
    if path[0] == 'cedar_linked_map':
        return ['crate', 'linked_map'] + path[1:]
    if path[0] == 'indexmap':
        return ['crate', 'ordered_map'] + [dict(TYPES).get(p, p) for p in path[1:]]
    return path


def uses_of(paths, body, crate, crates, more=()):
    """Returns the `use` lines that a body needs, from these paths."""
    names = set(identifiers(body))
    wanted = {}
    for path in [resolved(p, crate, crates) for p in paths] + [list(m) for m in more]:
        if path is None:
            continue
        name = path[-1].split(' as ')[-1]
        if path == ['std', 'error', 'Error'] and not re.search(r'\bError for\b', text(body)):
            continue
        if name == '_' or name in names or any(m in names for m in METHODS.get(name, ())):
            wanted.setdefault(tuple(path[:-1]), set()).add(path[-1])
    out = []
    for head in sorted(wanted):
        tails = sorted(wanted[head])
        joined = '::'.join(head)
        out.append(f'use {joined}::{tails[0]};' if len(tails) == 1 else f'use {joined}::{{{", ".join(tails)}}};')
    return out


def public_uses(source, crate, crates):
    """Rewrites `pub use` lines and modules to paths of the package."""
    def change(s):
        s = re.sub(r'\bcrate::', f'crate::{crate}::', s)
        named = '|'.join(sorted(crates, key=len, reverse=True))
        s = re.sub(rf'(?<![:\w])({named})::', r'crate::\1::', s)
        return s.replace('crate::crate::', 'crate::')
    source = re.sub(r'\]\(crate::', f'](crate::{crate}::', source)
    source = re.sub(r'\]\((cedar_\w+)::', r'](crate::\1::', source)
    source = on_code(source, lambda s: re.sub(r'\bpub\(crate\)', 'pub(CRATE)', s))
    return on_code(source, change).replace('pub(CRATE)', 'pub(crate)')


def uses_in(nodes):
    """Iterates over the paths of each `use` of a tree, also in modules."""
    for i, n in enumerate(nodes):
        if is_group(n, '{'):
            yield from uses_in(n.items)
        elif is_id(n, 'use'):
            e = i
            while not is_p(nodes[e], ';'):
                e += 1
            yield from full_paths(nodes[i + 1:e])


def pruned(nodes, crate, wanted):
    """Returns the head of a crate with only the re-exports that other files need."""
    out, i = [], 0
    while i < len(nodes):
        n = nodes[i]
        if is_id(n, 'pub') and is_id(nodes[after(nodes, i + 1)], 'mod') and is_group(nodes[after(nodes, i + 5)], '{'):
            drop_notes(out)
            i = after(nodes, i + 5) + 1
            continue
        if is_id(n, 'pub') and is_id(nodes[after(nodes, i + 1)], 'use'):
            e = i
            while not is_p(nodes[e], ';'):
                e += 1
            paths = [p for p in full_paths(nodes[after(nodes, i + 1) + 1:e]) if (crate, p[-1]) in wanted]
            heads = sorted({'::'.join(p[:-1]) for p in paths})
            for head in heads:
                names = sorted(p[-1] for p in paths if '::'.join(p[:-1]) == head)
                out += parse(f'pub use {head}::{{{", ".join(names)}}};\n')
            if not heads:
                drop_notes(out)
            i = e + 1
            continue
        out.append(n)
        i += 1
    return out


def drop_notes(out):
    """Removes the comments at the end."""
    while out and not isinstance(out[-1], Group) and (
            out[-1][0] == 'ws' or out[-1][0] == 'com' and not out[-1][1].startswith('//!')):
        out.pop()
    out.append(('ws', '\n'))
