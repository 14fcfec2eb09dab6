"""Makes parameters of public functions as general as in std: anything that can be iterated or read as a text."""
import re
from .trees import Group, after, before, is_id, is_p, parse


def generalized(params, body, modes):
    """Returns the parameters with the types of their modes, and the adapted body.

    The modes are:

    - `loop`: the body iterates over the parameter with a loop
    - `pass`: the body passes the parameter to a function that iterates over it
    - `collect`: the body needs a vector
    - `into`: the parameter is anything that can be converted to the type
    - `as_ref`: the parameter is anything that can be read as a text
    """
    out = []
    for p in params:
        name, kind = [x.strip() for x in re.sub(r'^mut ', '', p).split(':', 1)] if ':' in p else (p, '')
        mode = modes.get(name)
        if mode in ('loop', 'pass', 'collect'):
            kind = re.sub(r'^Vec<(.*)>$', r'impl IntoIterator<Item = \1>', kind)
            if mode == 'collect':
                body = replaced(body, name, '.into_iter().collect::<Vec<_>>()')
        elif mode == 'into':
            kind = f'impl Into<{kind}>'
            body = replaced(body, name, '.into()')
        elif mode == 'as_ref':
            kind = 'impl AsRef<str>'
            body = replaced(body, name, '.as_ref()')
        out.append(p if mode is None else f'{name}: {kind}')
    return out, body


def replaced(nodes, name, suffix):
    """Appends a suffix to the first use of `name`."""
    return first_replaced(nodes, name, suffix)[0]


def first_replaced(nodes, name, suffix):
    """Appends a suffix to the first use of `name`. Also returns whether there was one."""
    out, done = [], False
    for k, n in enumerate(nodes):
        if done:
            out.append(n)
        elif isinstance(n, Group):
            inner, done = first_replaced(n.items, name, suffix)
            out.append(Group(n.open, inner))
        elif is_id(n, name) and not is_member(nodes, k):
            if is_shorthand(nodes, k):
                out += parse(f'{name}: ')
            out += [n] + parse(suffix)
            done = True
        else:
            out.append(n)
    return out, done


def is_member(nodes, k):
    """Returns whether the name is a field, a part of a path, or the variable of a `let`."""
    j = before(nodes, k - 1)
    return j >= 0 and (is_p(nodes[j], '.') or is_p(nodes[j], '::') or is_id(nodes[j], 'let') or is_id(nodes[j], 'mut'))


def is_shorthand(nodes, k):
    """Returns whether the name is a field in shorthand form."""
    j, m = before(nodes, k - 1), after(nodes, k + 1)
    alone = (j < 0 or is_p(nodes[j], ',')) and (m >= len(nodes) or is_p(nodes[m], ','))
    return alone and any(is_p(n, ',') or is_p(n, ':') for n in nodes) and not any(is_p(n, '(') for n in nodes)
