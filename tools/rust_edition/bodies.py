"""Rewrites bodies of functions so that allocations cannot fail: no allocators, no `?` on values, and no `Ok`."""
import re
from .functions import called
from .statements import arms, from_arms, if_parts, match_parts, statements, values_of_block
from .trees import Group, after, before, code, is_code, is_comment, is_group, is_id, is_p, plain, text, trim, walk

ALLOCATOR = re.compile(r'_?alloc|Global|\*?[\w.]+\.allocator\(\)|\*Box::allocator\(.*\)|rt\.alloc\(\)')
STD_METHODS = set('''push insert insert_full extend_from_slice extend_from_within reserve to_string collect extend sort
sort_by entry append to_vec push_str clone'''.split())
STD_OWNERS = set('''Rc Arc RcStr Vec Box String IndexMap IndexSet LinkedMap LinkedSet HashMap HashSet BTreeMap VecDeque'''.split())
STD_MACROS = {'format', 'vec'}


class Place:
    """The file and the type of a function, which determine the meaning of its calls."""

    def __init__(self, table, crate, module, owner, imports, choices):
        self.table, self.crate, self.module, self.owner = table, crate, module, owner
        self.imports, self.choices, self.unknown = imports, choices, []

    def kind(self, nodes, q):
        """Returns the kind of the call before `nodes[q]`."""
        how, name, on, _ = called(nodes, q)
        chosen = self.choices.get((self.crate, self.module, name))
        if chosen:
            return chosen
        if how == 'macro':
            return 'memory' if name in STD_MACROS else 'result'
        if how == 'free':
            return self.table.of_free(self.crate, self.module, name, self.imports) or 'result'
        if how == 'path':
            return self.of_path(name, on)
        if how == 'method':
            return self.of_own(nodes, q, name) or self.of_method(name)
        return 'result'

    def of_path(self, name, on):
        """Returns the kind of a call `on::name(..)`."""
        if on in STD_OWNERS:
            return 'memory'
        on = self.owner if on == 'Self' else on
        kinds = self.table.owned.get((on, name))
        if kinds is None:
            return self.table.of_free(self.crate, self.module, name, self.imports) or 'result'
        return self.one(kinds, name)

    def of_own(self, nodes, q, name):
        """Returns the kind of `self.name(..)` if the type has such a method; otherwise `None`."""
        k = called(nodes, q)[3]
        m = before(nodes, before(nodes, k - 1) - 1)
        own = self.table.owned.get((self.owner, name), set())
        if is_id(nodes[m], 'self') and not is_p(nodes[before(nodes, m - 1)], '.') and len(own) == 1:
            return next(iter(own))
        return None

    def of_method(self, name):
        """Returns the kind of a call of a method with this name, of any type."""
        kinds = self.table.of_methods(self.crate, name) | ({'memory'} if name in STD_METHODS else set())
        return self.one(kinds, name)

    def one(self, kinds, name):
        """Returns the only kind. Several kinds are recorded as unknown."""
        kinds = set(kinds)
        if 'memory' in kinds:
            kinds.discard('value')
        if len(kinds) > 1:
            self.unknown.append(f'{self.crate}/{self.module}: `{name}` has several kinds: {sorted(kinds)}')
        return kinds.pop() if len(kinds) == 1 else 'result'


def without_allocators(nodes):
    """Removes each first argument that is an allocator, and each `let` of an allocator."""
    out = []
    for n in nodes:
        if is_group(n, '('):
            out.append(Group('(', without_first(without_allocators(n.items))))
        elif isinstance(n, Group):
            out.append(Group(n.open, without_allocators(n.items)))
        else:
            out.append(n)
    return without_macros(without_lets(out))


def without_first(items):
    """Removes the first argument if it is an allocator."""
    parts = items
    first = []
    for k, n in enumerate(items):
        if is_p(n, ','):
            parts = items[k + 1:]
            break
        first.append(n)
    else:
        parts = []
    if ALLOCATOR.fullmatch(plain(first)):
        return trim(parts) if code(parts) else []
    return items


def without_lets(nodes):
    """Removes `let alloc = ..;`."""
    out, i = [], 0
    while i < len(nodes):
        if is_id(nodes[i], 'let') and is_id(nodes[after(nodes, i + 1)], 'alloc'):
            while out and not is_code(out[-1]) and not is_comment(out[-1]):
                out.pop()
            while not is_p(nodes[i], ';'):
                i += 1
        else:
            out.append(nodes[i])
        i += 1
    return out


def without_macros(nodes):
    """Replaces `format!(in alloc; ..)` by `format!(..)`, and other macros in the same way."""
    for n in nodes:
        if isinstance(n, Group) and n.items:
            k = after(n.items, 0)
            if k < len(n.items) and is_id(n.items[k], 'in'):
                while not is_p(n.items[k], ';'):
                    k += 1
                n.items = trim(n.items[k + 1:])
    return nodes


def without_questions(nodes, place):
    """Removes `?` after calls that return a value, `.map_err(|_| ..Memory)` before it, and `.unwrap()`."""
    out = []
    for n in nodes:
        n = Group(n.open, without_questions(n.items, place)) if isinstance(n, Group) else n
        if is_p(n, '?') and out:
            drop_map_err(out)
            if place.kind(out, len(out)) == 'memory':
                while out and not is_code(out[-1]):
                    out.pop()
                continue
        out.append(n)
        drop_unwrap(out, place)
    return out


def drop_map_err(out):
    """Removes `.map_err(|_| ..Memory)` at the end."""
    j = before(out, len(out) - 1)
    if j > 1 and is_group(out[j], '(') and is_id(out[j - 1], 'map_err') and 'Memory' in text(out[j].items):
        del out[before(out, j - 2):]
        while out and not is_code(out[-1]):
            out.pop()


def drop_unwrap(out, place):
    """Removes `.unwrap()` at the end, after a call that returns a value."""
    if len(out) > 3 and is_group(out[-1], '(') and not out[-1].items and is_id(out[-2], 'unwrap') and is_p(out[-3], '.'):
        j = before(out, len(out) - 4)
        if is_group(out[j], '(') and place.kind(out, j + 1) == 'memory':
            del out[j + 1:]


def without_memory_arms(nodes):
    """Removes match arms for the variant `Memory`."""
    out = []
    for k, n in enumerate(nodes):
        if isinstance(n, Group):
            n = Group(n.open, without_memory_arms(n.items))
            if n.open == '{' and any(is_p(x, '=>') for x in n.items):
                remaining = [a for a in arms(n.items) if not re.search(r'\bMemory\b', plain(a.pattern))]
                if len(remaining) < len(arms(n.items)):
                    n = Group('{', from_arms(remaining))
        out.append(n)
    return out


def gives_error(body, place):
    """Returns whether a body of the kind `result` can return an error."""
    for nodes in walk(body):
        for i, n in enumerate(nodes):
            if is_p(n, '?') and place.kind(nodes, i) != 'memory':
                return True
            if is_id(n, 'Err') and not is_pattern(nodes, i):
                return True
            if is_id(n, 'return') and not is_fine(nodes[i + 1:stop_of(nodes, i)], place):
                return True
    return not all(is_fine(v, place) for v in values_of_block(Group('{', body)))


def is_pattern(nodes, i):
    """Returns whether the node begins a pattern."""
    j = after(nodes, after(nodes, i + 1) + 1)
    return j < len(nodes) and (is_p(nodes[j], '=>') or is_p(nodes[j], '=') or is_p(nodes[j], '|'))


def stop_of(nodes, i):
    """Returns the index of the next `;` or `,`, or the length."""
    while i < len(nodes) and not (is_p(nodes[i], ';') or is_p(nodes[i], ',')):
        i += 1
    return i


def is_fine(value, place):
    """Returns whether a value is `Ok` of something, or a call that returns a value."""
    cs = code(value)
    if not cs:
        return True
    if is_id(cs[0]) and cs[0][1] in ('return', 'loop'):
        return True
    if len(cs) == 2 and is_id(cs[0], 'Ok') and is_group(cs[1], '('):
        return True
    if any(is_p(n, '?') for n in cs):
        return False
    if plain(value).startswith('unreachable'):
        return True
    return is_group(cs[-1], '(') and place.kind(value, len(value)) == 'memory'


def without_ok(body, unit, place):
    """Removes `Ok` from the results of the body of a function that returns a value."""
    body = [Group(n.open, returns(n.items, unit, place)) if isinstance(n, Group) else n for n in body]
    body = plain_returns(body, unit, place)
    return block_without_ok(body, unit, place)


def returns(nodes, unit, place):
    """Removes `Ok` from the `return` expressions, also in nested groups."""
    nodes = [Group(n.open, returns(n.items, unit, place)) if isinstance(n, Group) else n for n in nodes]
    return plain_returns(nodes, unit, place)


def plain_returns(nodes, unit, place):
    """Replaces `return Ok(x)` by `return x`."""
    out, i = [], 0
    while i < len(nodes):
        out.append(nodes[i])
        if is_id(nodes[i], 'return'):
            stop = stop_of(nodes, i)
            inner = without_ok_at(nodes[i + 1:stop], unit, place)
            if unit and plain(inner) in ('', '()'):
                inner = []
            out += ([('ws', ' ')] if inner else []) + trim(inner)
            i = stop
            continue
        i += 1
    return out


def block_without_ok(nodes, unit, place):
    """Removes `Ok` from the value of a block."""
    list_ = statements(nodes)
    if not list_ or list_[-1][2]:
        return nodes
    start, stop, _ = list_[-1]
    value = nodes[start:stop]
    inner = without_ok_at(value, unit, place)
    if unit and plain(inner) in ('()', ''):
        return nodes[:start] + nodes[stop:]
    if unit and is_statement(inner):
        inner = inner + [('p', ';')]
    return nodes[:start] + inner + nodes[stop:]


def without_comma(nodes):
    """Removes a comma at the end."""
    return trim(nodes[:-1]) if nodes and is_p(nodes[-1], ',') else nodes


def is_statement(nodes):
    """Returns whether an expression needs a `;` when it becomes a statement."""
    cs = code(nodes)
    return bool(cs) and not (is_id(cs[0]) and cs[0][1] in ('if', 'match', 'return', 'loop', 'unreachable'))


def without_ok_at(value, unit, place):
    """Removes `Ok` from the value of an expression."""
    value = trim(value)
    if len(value) == 1 and is_group(value[0], '{'):
        return [Group('{', block_without_ok(value[0].items, unit, place))]
    if if_parts(value) is not None:
        return [Group('{', block_without_ok(n.items, unit, place)) if is_group(n, '{') else n for n in value]
    parts = match_parts(value)
    if parts is not None:
        list_ = arms(parts[1].items)
        for a in list_:
            a.body = without_ok_at(a.body, unit, place)
        return value[:-1] + [Group('{', from_arms(list_))]
    cs = code(value)
    if len(cs) == 2 and is_id(cs[0], 'Ok') and is_group(cs[1], '('):
        return without_comma(trim(cs[1].items))
    if not is_fine(value, place):
        place.unknown.append(f'{place.crate}/{place.module}: the value `{plain(value)[:70]}`')
    return value
