"""Replaces calls of functions that only copy, compare or hash their arguments by the bodies of the functions."""
import re
from .functions import functions
from .items import drop_notes, parameter_name
from .trees import Group, before, is_group, is_id, is_p, parse, plain, split

ONLY = re.compile(r'(\w+)\.cloned?\(\)|(\w+) == (\w+)|(\w+)\.hash\((\w+)\);?')


def with_inlined_calls(nodes):
    """Returns the items of a file without such functions, if each of their calls borrows fields."""
    bodies = {f.name: (f, m) for f, m in ((f, only(f)) for f, owner, _ in functions(nodes) if owner is None) if m}
    for name, (f, m) in bodies.items():
        calls = list(calls_of(nodes, name))
        if calls and all(borrows_fields(call, f, m) for call in calls):
            nodes = without(nodes, name, m, [parameter_name(p) for p in f.params])
    return nodes


def only(f):
    """Returns the match of the body of a private function that only copies, compares or hashes; otherwise `None`."""
    j = before(f.nodes, f.at - 1)
    if f.body is None or j >= 0 and (is_id(f.nodes[j], 'pub') or is_group(f.nodes[j], '(')):
        return None
    m = ONLY.fullmatch(plain(f.body).strip())
    names = [parameter_name(p) for p in f.params]
    return m if m and [g for g in m.groups() if g] == names else None


def calls_of(nodes, name):
    """Iterates over the argument groups of all calls of a function."""
    for k, n in enumerate(nodes):
        if isinstance(n, Group):
            yield from calls_of(n.items, name)
        if is_id(n, name) and k + 1 < len(nodes) and is_group(nodes[k + 1], '('):
            j = before(nodes, k - 1)
            if not (j >= 0 and is_id(nodes[j], 'fn')):
                yield nodes[k + 1]


def borrows_fields(call, f, m):
    """Returns whether a call borrows fields of values: `&self.part`."""
    arguments = [plain(a) for a in split(call.items)]
    count = 1 if m.group(1) or m.group(4) else 2
    return len(arguments) == len(f.params) and all(re.fullmatch(r'&\w+(\.\w+)+', a) for a in arguments[:count])


def without(nodes, name, m, params):
    """Returns the items without the function. Each call is replaced by the body."""
    out, k = [], 0
    while k < len(nodes):
        n = nodes[k]
        if is_id(n, 'fn') and (is_id(nodes[k + 2], name)):
            drop_notes(out)
            while not is_group(nodes[k], '{'):
                k += 1
        elif is_id(n, name) and k + 1 < len(nodes) and is_group(nodes[k + 1], '('):
            arguments = dict(zip(params, [plain(a).lstrip('&') for a in split(nodes[k + 1].items)]))
            inlined = re.sub(r'\w+', lambda w: arguments.get(w.group(0), w.group(0)), m.group(0).rstrip(';'))
            inlined = inlined.replace('.cloned()', '.clone()')  # an `&Option`, of which the call borrows a field
            negated = out and is_p(out[-1], '!') and ' == ' in inlined
            if negated:
                out.pop()
            out += parse(inlined.replace(' == ', ' != ') if negated else inlined)
            k += 1
        else:
            out.append(Group(n.open, without(n.items, name, m, params)) if isinstance(n, Group) else n)
        k += 1
    return out
