"""Splits texts of programs into tokens, and tokens into trees.

A leaf is a pair (kind, text). A group has the nodes between two brackets.
"""
import re

TOKEN = re.compile(r'''
  (?P<ws>\s+)
 |(?P<com>//[^\n]*|/\*.*?\*/)
 |(?P<str>b?r(?P<h>\#*)".*?"(?P=h)|[bc]?"(?:\\.|[^"\\])*")
 |(?P<chr>b?'(?:\\u\{[0-9a-fA-F_]+\}|\\x[0-9a-fA-F]{2}|\\.|[^'\\\n])')
 |(?P<life>'[A-Za-z_]\w*)
 |(?P<id>[^\W\d]\w*)
 |(?P<num>\d[\w]*(?:\.\d\w*)?)
 |(?P<p>->|=>|::|\.\.=|\.\.|==|!=|<=|>=|&&|\|\||\+=|-=|.)
''', re.X | re.S)

CLOSE = {'{': '}', '(': ')', '[': ']'}


class Group:
    """The nodes between two brackets."""
    __slots__ = ('open', 'items')

    def __init__(self, open_, items):
        self.open, self.items = open_, items

    def __repr__(self):
        return self.open + text(self.items) + CLOSE[self.open]


def lex(source):
    """Returns the tokens of a text."""
    out = []
    for m in TOKEN.finditer(source):
        kind = 'str' if m.group('str') else m.lastgroup
        out.append((kind, m.group(0)))
    return out


def parse(source):
    """Returns the tree of a text.

    Raises:
        AssertionError: the brackets do not match.
    """
    stack = [[]]
    opened = []
    for kind, value in lex(source):
        if kind == 'p' and value in CLOSE:
            opened.append(value)
            stack.append([])
        elif kind == 'p' and value in '})]':
            items = stack.pop()
            stack[-1].append(Group(opened.pop(), items))
        else:
            stack[-1].append((kind, value))
    assert len(stack) == 1, 'brackets do not match'
    return stack[0]


def text(nodes):
    """Returns the text of a tree."""
    out = []
    for n in nodes:
        if isinstance(n, Group):
            out += [n.open, text(n.items), CLOSE[n.open]]
        else:
            out.append(n[1])
    return ''.join(out)


def plain(nodes):
    """Returns the text on one line, without comments."""
    code_nodes = [n for n in nodes if not is_comment(n)]
    return re.sub(r'\s+', ' ', text(code_nodes)).strip()


def is_comment(n):
    return not isinstance(n, Group) and n[0] == 'com'


def is_code(n):
    return isinstance(n, Group) or n[0] not in ('ws', 'com')


def is_p(n, value):
    return not isinstance(n, Group) and n[0] == 'p' and n[1] == value


def is_id(n, value=None):
    return not isinstance(n, Group) and n[0] == 'id' and (value is None or n[1] == value)


def is_group(n, open_):
    return isinstance(n, Group) and n.open == open_


def after(nodes, i):
    """Returns the index of the first node of code at or after `i`."""
    while i < len(nodes) and not is_code(nodes[i]):
        i += 1
    return i


def before(nodes, i):
    """Returns the index of the last node of code at or before `i`, or -1."""
    while i >= 0 and not is_code(nodes[i]):
        i -= 1
    return i


def code(nodes):
    return [n for n in nodes if is_code(n)]


def split(nodes, mark=','):
    """Splits nodes at marks that are not within brackets. Angle brackets count too, so it is used for types."""
    parts, current, depth = [], [], 0
    for n in nodes:
        if is_p(n, '<'):
            depth += 1
        elif is_p(n, '>'):
            depth -= 1
        if is_p(n, mark) and depth == 0:
            parts.append(current)
            current = []
        else:
            current.append(n)
    parts.append(current)
    return [p for p in parts if code(p)]


def angle_end(nodes, i):
    """Returns the index of the `>` that closes the `<` at `i`."""
    depth = 0
    while True:
        if is_p(nodes[i], '<'):
            depth += 1
        elif is_p(nodes[i], '>'):
            depth -= 1
            if depth == 0:
                return i
        i += 1


def angle_start(nodes, i):
    """Returns the index of the `<` that opens the `>` at `i`."""
    depth = 0
    while True:
        if is_p(nodes[i], '>'):
            depth += 1
        elif is_p(nodes[i], '<'):
            depth -= 1
            if depth == 0:
                return i
        i -= 1


def trim(nodes):
    """Removes blanks at both ends."""
    a, b = 0, len(nodes)
    while a < b and not isinstance(nodes[a], Group) and nodes[a][0] == 'ws':
        a += 1
    while b > a and not isinstance(nodes[b - 1], Group) and nodes[b - 1][0] == 'ws':
        b -= 1
    return nodes[a:b]


def walk(nodes):
    """Iterates over all lists of nodes of a tree, outer ones first."""
    yield nodes
    for n in nodes:
        if isinstance(n, Group):
            yield from walk(n.items)


def identifiers(nodes):
    """Iterates over the identifiers of a tree, in order."""
    for n in nodes:
        if isinstance(n, Group):
            yield from identifiers(n.items)
        elif n[0] == 'id':
            yield n[1]
