"""Replaces the type of an `impl` by `Self` within the `impl`."""
import re
from .trees import Group, after, angle_end, before, is_group, is_id, is_p, plain


def self_type(head):
    """Returns the type of an `impl`, as its head writes it."""
    body = re.sub(r'^impl\s*', '', head)
    if body.startswith('<'):
        depth = 0
        for k, c in enumerate(body):
            depth += (c == '<') - (c == '>' and body[k - 1] != '-')
            if depth == 0:
                body = body[k + 1:].strip()
                break
    return re.sub(r'\s*\bwhere\b.*', '', body.split(' for ')[-1]).strip()


def with_self(nodes, name, kind):
    """Returns the items of an `impl` of the type `kind` with the name `name`, with `Self` for the type."""
    out, i = [], 0
    while i < len(nodes):
        n = nodes[i]
        if isinstance(n, Group):
            out.append(Group(n.open, with_self(n.items, name, kind)))
            i += 1
        elif is_id(n, name) and not follows_path(out):
            stop = own_end(nodes, i, name, kind)
            out.append(('id', 'Self') if stop else n)
            i = stop or i + 1
        else:
            out.append(n)
            i += 1
    return out


def follows_path(out):
    """Returns whether the next name is a part of a path, a method, or the name of a function or a module."""
    j = before(out, len(out) - 1)
    return j >= 0 and (is_p(out[j], '::') or is_p(out[j], '.') or is_id(out[j]) and out[j][1] in ('fn', 'mod'))


def own_end(nodes, i, name, kind):
    """Returns the index after the type that begins at `i`, if it is the type of the `impl`; otherwise `None`."""
    j = after(nodes, i + 1)
    if j >= len(nodes):
        return i + 1 if kind == name else None
    if is_p(nodes[j], '::'):
        return None if is_p(nodes[after(nodes, j + 1)], '<') else i + 1
    if is_group(nodes[j], '{') or is_group(nodes[j], '('):
        return i + 1
    if is_p(nodes[j], '<'):
        end = angle_end(nodes, j)
        return end + 1 if plain(nodes[i:end + 1]) == kind else None
    return i + 1 if kind == name else None
