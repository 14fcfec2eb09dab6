"""Replaces implementations of `Clone` that copy each part by `derive(Clone)`."""
import re
from .functions import Function, header, is_function, owner_of, starts_item
from .statements import arms, match_parts
from .trees import Group, after, code, is_id, is_p, plain, split, trim


def derived(nodes):
    """Returns the types of a file whose `Clone` copies each part and does nothing else."""
    parts = dict(types(nodes))
    out = set()
    for i, n in enumerate(nodes):
        if is_id(n, 'impl') and starts_item(nodes, i):
            j, head = header(nodes, i)
            owner, trait = owner_of(head)
            if trait != 'Clone' or not head.startswith('impl Clone') or '<' in head:
                continue
            k = next(k for k, m in enumerate(nodes[j].items) if is_function(nodes[j].items, k))
            body = Function(nodes[j].items, k).body
            if owner in parts and copies_all(body, owner, parts[owner]) or copies_each(body):
                out.add(owner)
    return out


def types(nodes):
    """Iterates over the structs of a file with their fields."""
    for i, n in enumerate(nodes):
        if is_id(n, 'struct'):
            name = nodes[after(nodes, i + 1)][1]
            j = after(nodes, after(nodes, i + 1) + 1)
            if isinstance(nodes[j], Group):
                fields = [field(p) for p in split(nodes[j].items)]
                yield name, fields if nodes[j].open == '{' else [str(k) for k in range(len(fields))]


def field(part):
    """Returns the name of a field."""
    cs = code(part)
    while is_p(cs[0], '#'):
        cs = cs[2:]
    return next(n[1] for n in cs if is_id(n) and n[1] not in ('pub', 'crate'))


def copies_all(body, owner, fields):
    """Returns whether the text of a `clone` body copies each field."""
    body_text = re.sub(r'\?', '', plain(body))
    constructor = re.fullmatch(rf'((?:let \w+ = self\.\w+\.clone\(\); )*)Ok\({owner} ?(.*)\)', body_text)
    if not constructor:
        return False
    copied = {a for a, b in re.findall(r'let (\w+) = self\.(\w+)\.clone\(\);', constructor.group(1)) if a == b}
    inner = constructor.group(2).strip()
    if inner.startswith('('):
        return inner == '(' + ', '.join(f'self.{f}.clone()' for f in fields) + ')'
    values = [g.strip() for g in inner.strip('{} ').split(',') if g.strip()]
    fine = {f'{f}: self.{f}.clone()' for f in fields} | {f'{f}: self.{f}' for f in fields} | copied
    return len(values) == len(fields) and all(g in fine for g in values)


def copies_each(body):
    """Returns whether a `clone` body copies each part of each variant of an `enum`."""
    found = match_parts(trim(body))
    if found is None or plain(found[0]) != 'self':
        return False
    return all(copied(a) == plain(a.pattern) for a in arms(found[1].items))


def copied(arm):
    """Returns the value of a match arm, with each copy replaced by the copied part."""
    body_text = plain(arm.body).replace('?', '')
    body_text = re.sub(r'^\{ (.*) \}$', r'\1', body_text)
    body_text = re.sub(r'let (\w+) = \1\.clone\(\); ', '', body_text)
    body_text = re.sub(r'^Ok\((.*)\)$', r'\1', body_text)
    body_text = re.sub(r'\b(\w+)\.clone\(\)', r'\1', re.sub(r'\*(\w+)', r'\1', body_text))
    body_text = re.sub(r'\b(\w+): \1\b', r'\1', body_text)
    return re.sub(r',(?= ?[)}])', '', re.sub(r'\( ', '(', re.sub(r' \)', ')', body_text)))
