"""Splits blocks into statements and matches into arms, and finds the values of blocks."""
from .trees import after, before, is_group, is_id, is_p, trim

BLOCKS = ('if', 'match', 'for', 'while', 'loop', 'unsafe')


def statements(nodes):
    """Returns (start, stop, closed) for each statement. A statement that is not closed is the value of the block."""
    out, i = [], after(nodes, 0)
    while i < len(nodes):
        start = i
        while is_p(nodes[i], '#'):
            i = after(nodes, after(nodes, i + 1) + 1)
        stop = block_end(nodes, i) if is_block(nodes[i]) else None
        if stop is not None:
            nxt = after(nodes, stop)
            if nxt >= len(nodes):
                out.append((start, stop, False))
                return out
            if not (is_p(nodes[nxt], '.') or is_p(nodes[nxt], '?')):
                closed = stop
                if is_p(nodes[nxt], ';'):
                    closed = nxt + 1
                out.append((start, closed, True))
                i = after(nodes, closed)
                continue
        while i < len(nodes) and not is_p(nodes[i], ';'):
            i += 1
        if i >= len(nodes):
            out.append((start, before(nodes, len(nodes) - 1) + 1, False))
            return out
        out.append((start, i + 1, True))
        i = after(nodes, i + 1)
    return out


def is_block(n):
    """Returns whether a node begins an expression that ends with a block."""
    return is_group(n, '{') or is_id(n) and n[1] in BLOCKS


def block_end(nodes, i):
    """Returns the index after the expression that begins at `i` and ends with a block."""
    while True:
        while not is_group(nodes[i], '{'):
            i += 1
        nxt = after(nodes, i + 1)
        if nxt < len(nodes) and is_id(nodes[nxt], 'else'):
            i = nxt + 1
            continue
        return i + 1


class Arm:
    """An arm of a `match`: its pattern, its body, and the comments before it."""

    def __init__(self, notes, pattern, body):
        self.notes, self.pattern, self.body = notes, trim(pattern), trim(body)

    def nodes(self):
        end = [] if len(self.body) == 1 and is_group(self.body[0], '{') else [('p', ',')]
        space = [('ws', ' ')]
        notes = trim(self.notes)
        notes = notes + [('ws', '\n')] if notes else []
        return notes + self.pattern + space + [('p', '=>')] + space + self.body + end + [('ws', '\n')]


def arms(nodes):
    """Returns the arms between the braces of a `match`."""
    out, i = [], 0
    while after(nodes, i) < len(nodes):
        first = after(nodes, i)
        notes = nodes[i:first]
        j = first
        while not is_p(nodes[j], '=>'):
            j += 1
        k = after(nodes, j + 1)
        stop = k
        nxt = after(nodes, k + 1)
        if is_group(nodes[k], '{') and (nxt >= len(nodes) or not (is_p(nodes[nxt], '.') or is_p(nodes[nxt], '?'))):
            stop = k + 1
        else:
            while stop < len(nodes) and not is_p(nodes[stop], ','):
                stop += 1
        out.append(Arm(notes, nodes[first:j], nodes[j + 1:stop]))
        nxt = after(nodes, stop)
        i = nxt + 1 if nxt < len(nodes) and is_p(nodes[nxt], ',') else stop
    return out


def from_arms(list_):
    """Returns the nodes of arms."""
    out = [('ws', '\n')]
    for arm in list_:
        out += arm.nodes()
    return out


def match_parts(nodes):
    """Returns the subject and the group of the arms, if the nodes are only a `match`; otherwise `None`."""
    cs = trim(nodes)
    if not cs or not is_id(cs[0], 'match') or not is_group(cs[-1], '{'):
        return None
    if any(is_group(n, '{') for n in cs[1:-1]):
        return None
    return cs[1:-1], cs[-1]


def if_parts(nodes):
    """Returns the groups of all blocks, if the nodes are only an `if` with its `else` parts; otherwise `None`."""
    cs = trim(nodes)
    if not cs or not is_id(cs[0], 'if'):
        return None
    if block_end(cs, 0) != len(cs):
        return None
    return [n for n in cs if is_group(n, '{')]


def values(nodes):
    """Iterates over the expressions that can be the value of an expression, through `if`, `match` and blocks."""
    nodes = trim(nodes)
    if len(nodes) == 1 and is_group(nodes[0], '{'):
        yield from values_of_block(nodes[0])
        return
    blocks = if_parts(nodes)
    if blocks is not None:
        for block in blocks:
            yield from values_of_block(block)
        return
    parts = match_parts(nodes)
    if parts is not None:
        for arm in arms(parts[1].items):
            yield from values(arm.body)
        return
    yield nodes


def values_of_block(block):
    """Iterates over the expressions that can be the value of a block."""
    list_ = statements(block.items)
    if list_ and not list_[-1][2]:
        yield from values(block.items[list_[-1][0]:list_[-1][1]])
    elif not list_:
        yield []
