"""Parses functions, determines what they return, and resolves calls."""
import re
from .trees import Group, after, angle_end, angle_start, before, code, is_group, is_id, is_p, plain, split

MEMORY = re.compile(r'(?:std::result::)?Result<(.*), AllocError>')
RESULT = re.compile(r'(?:std::result::)?Result<.*>')


class Function:
    """A function of a tree: `nodes[start:stop]`, with its body in `body`."""

    def __init__(self, nodes, i):
        self.nodes, self.at = nodes, i
        j = after(nodes, i + 1)
        self.name_at, self.name = j, nodes[j][1]
        k = after(nodes, j + 1)
        self.generics = (k, k)
        if is_p(nodes[k], '<'):
            end = angle_end(nodes, k)
            self.generics = (k, end + 1)
            k = after(nodes, end + 1)
        self.params_at = k
        self.params = split(nodes[k].items)
        e = k + 1
        while not (is_group(nodes[e], '{') or is_p(nodes[e], ';')):
            e += 1
        self.end = e
        self.body = nodes[e].items if isinstance(nodes[e], Group) else None
        self.read_tail()

    def read_tail(self):
        """Reads the type of the result and the `where` clause."""
        tail = [n for n in self.nodes[self.params_at + 1:self.end]]
        where = next((k for k, n in enumerate(tail) if is_id(n, 'where')), len(tail))
        arrow = next((k for k, n in enumerate(tail) if is_p(n, '->')), None)
        self.answer = plain(tail[arrow + 1:where]) if arrow is not None else ''
        self.where = plain(tail[where:])

    def is_method(self):
        return bool(self.params) and is_self(self.params[0])

    def takes_memory(self):
        return any(is_allocator(p) for p in self.params)


def is_self(p):
    return re.match(r"(&\s*('\w+\s*)?)?(mut\s+)?self\b", plain(p)) is not None


def is_allocator(p):
    return re.fullmatch(r'_?alloc: Global', plain(p)) is not None


def is_function(nodes, i):
    """Returns whether `nodes[i]` is the `fn` of an item, and not of a type."""
    if not is_id(nodes[i], 'fn'):
        return False
    j = after(nodes, i + 1)
    return j < len(nodes) and is_id(nodes[j])


def header(nodes, i):
    """Returns the index of the body of the `impl` or `trait` at `i`, and the text before the body."""
    j = i
    while not is_group(nodes[j], '{'):
        j += 1
    return j, plain(nodes[i:j])


def owner_of(head):
    """Returns the type of an `impl`, and its trait."""
    head = re.sub(r"for<[^>]*>", '', head)
    body = re.sub(r'^(impl|trait)\s*', '', head)
    if body.startswith('<'):
        nodes = [('p', c) if c in '<>' else ('id', c) for c in body]
        body = body[angle_end(nodes, 0) + 1:].strip()
    body = re.sub(r'\bwhere\b.*', '', body)
    parts = re.split(r'\bfor\b', body)
    name = re.sub(r"[&']", '', re.sub(r'<.*', '', parts[-1].strip(), flags=re.S)).strip().split('::')[-1]
    trait = re.sub(r'<.*', '', parts[0].strip(), flags=re.S).split('::')[-1] if len(parts) > 1 else None
    return name, trait


def functions(nodes, owner=None, trait=None):
    """Iterates over the functions of a tree, with their types and traits."""
    i = 0
    while i < len(nodes):
        n = nodes[i]
        if is_id(n) and n[1] in ('impl', 'trait') and starts_item(nodes, i):
            j, head = header(nodes, i)
            name, of = owner_of(head)
            yield from functions(nodes[j].items, name, of or ('trait' if n[1] == 'trait' else None))
            i = j + 1
        elif is_id(n, 'mod') and is_group(nodes[after(nodes, after(nodes, i + 1) + 1)], '{'):
            j = after(nodes, after(nodes, i + 1) + 1)
            yield from functions(nodes[j].items)
            i = j + 1
        elif is_function(nodes, i):
            f = Function(nodes, i)
            yield f, owner, trait
            i = f.end + 1
        else:
            i += 1


def starts_item(nodes, i):
    j = before(nodes, i - 1)
    return j < 0 or isinstance(nodes[j], Group) or is_p(nodes[j], ';') or is_id(nodes[j], 'pub')


def kind_of(answer):
    """Returns the kind of a result: `memory` if the function can fail only by an allocation."""
    if MEMORY.fullmatch(answer):
        return 'memory'
    if RESULT.fullmatch(answer):
        return 'result'
    if answer.startswith('Option<'):
        return 'option'
    if 'Result' in answer:
        return 'result'
    return 'value'


def called(nodes, q):
    """Returns the name of the call that ends before `nodes[q]`, its receiver or path, and the index of the name.

    The first item of the result is the form of the call.
    """
    j = before(nodes, q - 1)
    n = nodes[j]
    if is_id(n):
        return ('variable', n[1], None, j)
    if not isinstance(n, Group) or n.open == '{':
        return ('block', None, None, j)
    k = before(nodes, j - 1)
    if k >= 0 and is_p(nodes[k], '!'):
        m = before(nodes, k - 1)
        return ('macro', nodes[m][1], None, m)
    if n.open == '[':
        return ('index', None, None, j)
    if k >= 0 and is_p(nodes[k], '>'):
        s = angle_start(nodes, k)
        k = before(nodes, before(nodes, s - 1) - 1)
    if k < 0 or not is_id(nodes[k]):
        return ('other', None, None, j)
    m = before(nodes, k - 1)
    if m >= 0 and is_p(nodes[m], '.'):
        return ('method', nodes[k][1], None, k)
    if m >= 0 and is_p(nodes[m], '::'):
        o = before(nodes, m - 1)
        if is_p(nodes[o], '>'):
            o = before(nodes, angle_start(nodes, o) - 1)
            if is_p(nodes[o], '::'):
                o = before(nodes, o - 1)
        return ('path', nodes[k][1], nodes[o][1], k)
    return ('free', nodes[k][1], None, k)


class Table:
    """The kinds of the results of all functions of the project."""

    def __init__(self):
        self.free, self.owned, self.methods, self.macros, self.crates = {}, {}, {}, {}, []

    def note(self, crate, module, f, owner, trait):
        """Adds a function."""
        kind = kind_of(f.answer)
        if crate not in self.crates:
            self.crates.append(crate)
        if owner is None:
            self.free.setdefault((crate, f.name), {})[module] = kind
            return
        self.owned.setdefault((owner, f.name), set()).add(kind)
        if trait == 'trait':
            self.owned.setdefault(('V', f.name), set()).add(kind)
        if f.is_method():
            self.methods.setdefault(f.name, {}).setdefault(crate, set()).add(kind)

    def set_value(self, crate, module, f, owner):
        """Records that the function cannot fail."""
        if owner is None:
            self.free[crate, f.name][module] = 'memory'
        else:
            self.owned[owner, f.name] = {'memory'}
            if f.is_method():
                kinds = self.methods[f.name][crate]
                self.methods[f.name][crate] = kinds - {'result'} | {'memory'}

    def of_methods(self, crate, name):
        """Returns the kinds of the methods with a name that a crate can call.

        These are the methods of the crate itself, and of the crates that were added before it.
        """
        below = self.crates[:self.crates.index(crate) + 1]
        return {kind for of, kinds in self.methods.get(name, {}).items() if of in below for kind in kinds}

    def of_free(self, crate, module, name, imports):
        """Returns the kind of a free function, as it is called in a file; `None` if it is not known."""
        at = imports.get(name, (crate, module))
        kinds = self.free.get((at[0], name), {})
        if module in kinds and at[0] == crate and name not in imports:
            return kinds[module]
        if at[1] in kinds:
            return kinds[at[1]]
        values = set(kinds.values())
        return values.pop() if len(values) == 1 else None


def imports_of(nodes, crate, crates):
    """Returns the imported names of a file, with the crate and the file from which each comes."""
    out = {}
    i = 0
    while i < len(nodes):
        if is_id(nodes[i], 'use'):
            e = i
            while not is_p(nodes[e], ';'):
                e += 1
            for path in paths_of(nodes[i + 1:e]):
                of = crate if path[0] in ('crate', 'super', 'self') else path[0]
                if of in crates:
                    out[path[-1]] = (of, path[1] if len(path) > 2 else '')
            i = e
        elif isinstance(nodes[i], Group) and nodes[i].open == '{':
            pass
        i += 1
    return out


def paths_of(nodes):
    """Returns the paths of a `use`."""
    cs = code(nodes)
    head = []
    for k, n in enumerate(cs):
        if is_group(n, '{'):
            out = []
            for part in split(n.items):
                out += [head + p for p in paths_of(part)]
            return out
        if is_id(n, 'as'):
            return [head[:-1] + [cs[k + 1][1]]] if is_id(cs[k + 1]) else [head]
        if is_id(n):
            head.append(n[1])
    return [head]
