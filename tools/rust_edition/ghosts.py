"""Removes everything that only proofs use: contracts, ghost items, proved assertions, models and tactics."""
import re
from .trees import Group, after, before, code, is_code, is_comment, is_group, is_id, is_p, parse, text

ATTRIBUTES = ('tactic', 'cycle', 'derive_where')


def strip(nodes):
    """Returns the tree without ghosts."""
    out, i = [], 0
    while i < len(nodes):
        n = nodes[i]
        if is_id(n, 'ghost'):
            i = skip_ghost(nodes, i, out)
        elif is_id(n) and n[1] in ('requires', 'ensures'):
            i = skip_clause(nodes, i)
        elif is_p(n, '#') and is_ghost_attribute(nodes, i):
            i = after(nodes, i + 1)
            i = after_blank(nodes, (after(nodes, i + 1) if is_p(nodes[i], '!') else i) + 1)
        elif is_id(n, 'impl') and is_model(nodes, i):
            drop_docs(out)
            i = skip_to_body(nodes, i) + 1
        elif is_id(n) and n[1] in ('prove', 'prove_eq', 'prove_ne') and is_p(nodes[after(nodes, i + 1)], '!'):
            i = skip_statement(nodes, i)
            drop_comments(out)
        else:
            out.append(Group(n.open, strip(n.items)) if isinstance(n, Group) else n)
            i += 1
    return out


def after_blank(nodes, i):
    """Returns the index after a blank at `i`."""
    return i + 1 if i < len(nodes) and not isinstance(nodes[i], Group) and nodes[i][0] == 'ws' else i


def skip_ghost(nodes, i, out):
    """Removes a ghost item with its comments. Returns the index after it."""
    while out and (not is_code(out[-1]) and not is_head(out[-1]) or is_id(out[-1], 'pub')):
        out.pop()
    out.append(('ws', '\n'))
    j = after(nodes, i + 1)
    if is_id(nodes[j], 'use'):
        while not is_p(nodes[j], ';'):
            j += 1
        return j + 1
    while j < len(nodes) and not (is_p(nodes[j], ';') or is_p(nodes[j], ',')):
        j += 1
    return j + 1


def is_head(n):
    """Returns whether a node is a comment on the file."""
    return is_comment(n) and n[1].startswith('//!')


def skip_clause(nodes, i):
    """Returns the index after a clause of a contract."""
    j = i + 1
    while not is_group(nodes[j], '{'):
        j += 1
    return j + 1


def skip_statement(nodes, i):
    """Returns the index after a statement."""
    while not is_p(nodes[i], ';'):
        i += 1
    return i + 1


def skip_to_body(nodes, i):
    """Returns the index of the next block."""
    while not is_group(nodes[i], '{'):
        i += 1
    return i


def is_ghost_attribute(nodes, i):
    """Returns whether an attribute is only for proofs."""
    j = after(nodes, i + 1)
    g = nodes[after(nodes, j + 1)] if is_p(nodes[j], '!') else nodes[j]
    return is_group(g, '[') and is_id(g.items[after(g.items, 0)]) and g.items[after(g.items, 0)][1] in ATTRIBUTES


def is_model(nodes, i):
    """Returns whether an `impl` is a model, or a `Drop` that only destructures the value."""
    j = before(nodes, i - 1)
    if j >= 0 and not (isinstance(nodes[j], Group) or is_p(nodes[j], ';')):
        return False
    body = skip_to_body(nodes, i)
    head = text(nodes[i:body])
    if re.search(r'\bModel\s+for\b', head):
        return True
    if not re.match(r'impl(?:<.*>)?\s+Drop\s+for\b', head, re.S):
        return False
    # a `drop(self)` that only destructures the value is redundant: the fields are dropped anyway
    inner = ''.join(text([n]) for n in code(nodes[body].items))
    return re.fullmatch(r'fndrop\(self\)\{let[\w:]*\{[^{}]*\}=self;\}', inner.replace(' ', '').replace('\n', '')) is not None


def drop_docs(out):
    """Removes the comments at the end."""
    while out and (not is_code(out[-1])):
        out.pop()
    out.append(('ws', '\n\n'))


def drop_comments(out):
    """Removes the last comment, which described the removed code."""
    while out and not is_code(out[-1]):
        out.pop()
    out.append(('ws', '\n'))


def without_ghosts(source):
    """Returns the tree of a source without the parts that only proofs use."""
    return strip(parse(source))
