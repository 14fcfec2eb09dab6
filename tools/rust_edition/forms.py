"""Rewrites code whose form only a proof needs to the usual form in Rust."""
import re
from .statements import arms, from_arms, match_parts, statements
from .trees import (Group, after, before, code, identifiers, is_code, is_comment, is_group, is_id, is_p, parse, plain,
                    text, trim, walk)

# functions that only read
READERS = {'len', 'is_empty', 'is_static', 'env', 'basename', 'name', 'iter', 'count_ids'}
NOTHING = {'()', '{}', '{ }', '{()}', '{ () }', ''}


def natural(body, answer, types):
    """Returns the body of a function in its usual form."""
    body = block(body, answer.startswith('Option<'))
    body = by_part(gathered(taken(pushed(body), types), types), types)
    body = without_last_match(body)
    return without_last_return(body) if answer in ('', '()') else body


def block(nodes, gives_option):
    """Rewrites the statements of a block."""
    nodes = inner(nodes, gives_option)
    nodes = with_rest(without_readings(nodes))
    nodes = without_empty_else(without_drops(nodes))
    if gives_option:
        nodes = with_last_question(simple_values(with_returns(with_questions(nodes))))
    return without_last_let(simple_values(nodes))


def inner(nodes, gives_option):
    """Rewrites the contents of brackets, by their kind."""
    out = []
    for k, n in enumerate(nodes):
        if is_group(n, '{'):
            if any(is_p(x, '=>') for x in n.items):
                n = Group('{', from_arms(arms_in(n.items, gives_option)))
            elif is_literal(nodes, k):
                n = Group('{', inner(n.items, gives_option))
            else:
                n = Group('{', block(n.items, gives_option and not is_closure(nodes, k)))
        elif isinstance(n, Group):
            n = Group(n.open, inner(n.items, False))
        out.append(n)
    return out


def is_closure(nodes, k):
    """Returns whether the group is the body of a closure."""
    return is_p(nodes[before(nodes, k - 1)], '|') if before(nodes, k - 1) >= 0 else False


def is_literal(nodes, k):
    """Returns whether the braces belong to a value or a pattern of a struct."""
    j = before(nodes, k - 1)
    if j < 0 or not is_id(nodes[j]) or not nodes[j][1][0].isupper():
        return False
    cs = code(nodes[k].items)
    return not cs or is_p(cs[0], '..') or is_id(cs[0]) and (len(cs) == 1 or is_p(cs[1], ':') or is_p(cs[1], ','))


def arms_in(items, gives_option):
    """Rewrites the arms of a `match`."""
    out = arms(items)
    for a in out:
        a.pattern = unnamed(a.pattern)
        a.body = simple(trim(inner(a.body, gives_option)))
        drop_in_arm(a)
    return joined(out)


def unnamed(pattern):
    """Replaces names that begin with `_` in a pattern by `_`."""
    return [Group(n.open, unnamed(n.items)) if isinstance(n, Group) else
            ('id', '_') if is_id(n) and n[1].startswith('_') else n for n in pattern]


def joined(list_):
    """Merges adjacent arms with the same body."""
    out = []
    for a in list_:
        last = out[-1] if out else None
        is_same = last is not None and plain(last.body) == plain(a.body) and bound(last) == bound(a)
        if is_same and not is_noted(a) and not any(is_id(n, 'if') or is_p(n, '_') for n in last.pattern + a.pattern):
            last.pattern += parse(' | ') + a.pattern
        else:
            out.append(a)
    return out


def bound(arm):
    """Returns the names that the pattern of an arm binds."""
    return {n for n in identifiers(arm.pattern) if n[0].islower()}


def drop_in_arm(a):
    """Replaces `None => drop(x)` by `None => ()`, because the function drops `x` anyway. A call is kept."""
    cs = code(a.body)
    if len(cs) == 2 and is_id(cs[0], 'drop') and is_group(cs[1], '(') and len(code(cs[1].items)) == 1:
        a.body = [Group('(', [])]


def without_readings(nodes):
    """Removes `let _name = ..;` with its comment if it only reads. Otherwise keeps only the call."""
    out, last = [], 0
    for start, stop, closed in statements(nodes):
        out += nodes[last:start]
        last = stop
        part = nodes[start:stop]
        cs = code(part)
        if closed and len(cs) > 3 and is_id(cs[0], 'let') and is_id(cs[1]) and cs[1][1].startswith('_') and is_p(cs[2], '='):
            if reads_alone(cs[3:-1]):
                while out and not is_code(out[-1]):
                    out.pop()
                continue
            if plain(cs[3:-1]).startswith('write!') is False:
                equals = next(k for k, n in enumerate(part) if is_p(n, '='))
                part = trim(part[equals + 1:])
        out += part
    return out + nodes[last:]


def with_rest(nodes):
    """Replaces unused fields of `let T { a, b: _ } = x;` by `..`."""
    for start, stop, _ in statements(nodes):
        cs = code(nodes[start:stop])
        if len(cs) > 3 and is_id(cs[0], 'let') and is_id(cs[1]) and is_group(cs[2], '{') and cs[1][1][0].isupper():
            fields = [plain(f) for f in parts(cs[2].items)]
            remaining = [f for f in fields if not re.fullmatch(r'\w+: _\w*', f)]
            if len(remaining) < len(fields):
                cs[2].items[:] = parse(' ' + ', '.join([f for f in remaining if f != '..'] + ['..']) + ' ')
    return nodes


def reads_alone(cs):
    """Returns whether an expression only calls readers."""
    names = [cs[k][1] for k in range(len(cs) - 1) if is_id(cs[k]) and is_group(cs[k + 1], '(')]
    inside = [plain(n.items) for n in cs if is_group(n, '(') and n.items]
    if is_p(cs[0], '&'):
        return not names
    if len(cs) == 1 and is_group(cs[0], '('):
        return all(x in READERS for x in re.findall(r'(\w+)\(', plain(cs[0].items)))
    return bool(names) and all(n in READERS for n in names) and (not inside or names == ['count_ids'])


def without_drops(nodes):
    """Removes `drop(x);` and the binding of `x`. Replaces `drop(call(..));` by the call."""
    out = list(nodes)
    for start, stop, closed in reversed(statements(nodes)):
        cs = code(out[start:stop])
        if not (closed and len(cs) == 3 and is_id(cs[0], 'drop') and is_group(cs[1], '(')):
            continue
        dropped = code(cs[1].items)
        if len(dropped) == 1 and is_id(dropped[0]):
            while start and not is_code(out[start - 1]) and not is_comment(out[start - 1]):
                start -= 1
            del out[start:stop]
            unbind(out[:start], out, dropped[0][1])
        else:
            out[start:stop] = trim(cs[1].items) + [('p', ';')]
    return out


def unbind(before_, out, name):
    """Removes a name from the pattern of the `let` that binds it."""
    for start, stop, _ in reversed(statements(before_)):
        part = out[start:stop]
        cs = code(part)
        if not is_id(cs[0], 'let'):
            continue
        if is_group(cs[1], '('):
            cs[1].items[:] = [('id', '_') if is_id(n, name) else n for n in cs[1].items]
            if set(re.findall(r'\w+', plain(cs[1].items))) == {'_'}:
                equals = next(k for k, n in enumerate(part) if is_p(n, '='))
                out[start:stop] = trim(part[equals + 1:])
        for k, n in enumerate(cs[:3]):
            if is_group(n, '{') and name in identifiers(n.items):
                fields = [f for f in parts(n.items) if name not in identifiers(f)]
                remaining = [f for f in fields if plain(f) != '..']
                n.items[:] = parse(' ' + ', '.join(plain(f) for f in remaining) + ', .. ')
        return


def parts(items):
    """Splits nodes at commas. Skips empty parts."""
    out, current = [], []
    for n in items:
        if is_p(n, ','):
            out.append(current)
            current = []
        else:
            current.append(n)
    return [p for p in out + [current] if code(p)]


def with_questions(nodes):
    """Replaces `let Some(x) = y else { return None; };` by `let x = y?;` in a function that returns an option."""
    out, last = [], 0
    for start, stop, _ in statements(nodes):
        part = nodes[start:stop]
        m = re.fullmatch(r'let Some\(([a-z_(][a-z_0-9, ()]*)\) = (.*) else \{ return None; \};', plain(part))
        out += nodes[last:start]
        out += parse(f'let {m.group(1)} = {m.group(2)}?;') if m else part
        last = stop
    return out + nodes[last:]


def question(part):
    """Parses `match x { None => (return) None, Some(p) => e }`.

    Returns `x`, the body of the first arm, `p` and `e`; or `None` if the nodes have another form.
    """
    found = match_parts(part)
    if found is None:
        return None
    list_ = arms(found[1].items)
    by = {plain(a.pattern): a for a in list_}
    some = [p for p in by if re.fullmatch(r'Some\(([a-z_(][a-z_0-9, ()]*)\)', p)]
    if len(list_) != 2 or 'None' not in by or len(some) != 1 or any(is_noted(a) for a in list_):
        return None
    return plain(found[0]), plain(by['None'].body), some[0][5:-1], by[some[0]].body


def with_last_question(nodes):
    """Replaces `match x { None => None, Some(p) => e }` at the end by `let p = x?; e`."""
    list_ = statements(nodes)
    if not list_ or list_[-1][2]:
        return nodes
    start, stop, _ = list_[-1]
    found = question(nodes[start:stop])
    if found is None or found[1] != 'None' or found[0].startswith('&'):
        return nodes
    subject, _, name, body = found
    body = trim(body[0].items) if len(body) == 1 and is_group(body[0], '{') else body
    return nodes[:start] + parse(f'let {name} = {subject}?;\n') + body + nodes[stop:]


def with_returns(nodes):
    """Replaces `match x { None => return None, Some(p) => f(p) }` by `f(x?)`."""
    out, last = [], 0
    for start, stop, closed in statements(nodes):
        part = nodes[start:stop]
        out += nodes[last:start]
        last = stop
        found = question(part) or question(part[:-1])
        if found is None or found[1] != 'return None' or found[0].startswith('&') or not re.fullmatch(r'\w+', found[2]):
            out += part
            continue
        subject, _, name, body = found
        body_text = plain(body)
        if len(re.findall(rf'\b{name}\b', body_text)) == 1 and ';' not in body_text:
            end = ';' if closed or not body_text.endswith('}') else ''
            out += parse(re.sub(rf'\b{name}\b', lambda _: subject + '?', body_text) + end)
        else:
            out += part
    return out + nodes[last:]


def without_last_match(nodes):
    """Replaces `match x { Ok(()) => y, Err(e) => Err(e) }` at the end by `x?; y`."""
    list_ = statements(nodes)
    if not list_ or list_[-1][2]:
        return nodes
    start, stop, _ = list_[-1]
    found = match_parts(nodes[start:stop])
    if found is None:
        return nodes
    by = {plain(a.pattern): a for a in arms(found[1].items)}
    errors = [(p, a) for p, a in by.items() if re.fullmatch(r'Err\(\w+\)', p) and plain(a.body) == p]
    if len(by) != 2 or 'Ok(())' not in by or not errors:
        return nodes
    return nodes[:start] + parse(plain(found[0]) + '?;\n') + by['Ok(())'].body + nodes[stop:]


def taken(nodes, types):
    """Replaces `let T { a, .. } = x; a` at the end by `x.a`."""
    list_ = statements(nodes)
    if len(list_) < 2 or list_[-1][2]:
        return nodes
    (start, stop, _), (a, b, _) = list_[-2:]
    made = re.fullmatch(r'let [A-Z]\w* \{ (?:(\w+): )?(\w+),?(?: \.\.)? \} = (\w+);', plain(nodes[start:stop]))
    if not made or made.group(2) != plain(nodes[a:b]):
        return nodes
    lent = '&' if types.get(made.group(3), '').startswith('&') else ''
    return nodes[:start] + parse(f'{lent}{made.group(3)}.{made.group(1) or made.group(2)}') + nodes[b:]


def without_last_let(nodes):
    """Replaces `let x = y; x` by `y`."""
    list_ = statements(nodes)
    if len(list_) < 2 or list_[-1][2]:
        return nodes
    (start, stop, _), (a, b, _) = list_[-2:]
    name, cs = plain(nodes[a:b]), code(nodes[start:stop])
    if not (is_id(cs[0], 'let') and re.fullmatch(r'\w+', name) and is_id(cs[1], name) and is_p(cs[2], '=')):
        return nodes
    if any(is_id(n, 'else') for n in cs):
        return nodes
    equals = next(k for k in range(start, stop) if is_p(nodes[k], '='))
    return nodes[:start] + trim(nodes[equals + 1:before(nodes, stop - 1)]) + nodes[b:]


def simple_values(nodes):
    """Simplifies each statement and the value of a block."""
    out, last = [], 0
    for start, stop, closed in statements(nodes):
        out += nodes[last:start]
        part = nodes[start:stop]
        made = let_match(part) if closed else None
        if made is None:
            ends = closed and is_p(part[before(part, len(part) - 1)], ';')
            core = part[:before(part, len(part) - 1)] if ends else part
            made = simple(core) + ([('p', ';')] if ends else [])
        out += made
        last = stop
    return out + nodes[last:]


def let_match(part):
    """Simplifies `let x = match ..;`. Returns `None` for any other statement."""
    cs = code(part)
    if not (is_id(cs[0], 'let') and any(is_p(n, '=') for n in part)):
        return None
    equals = next(k for k, n in enumerate(part) if is_p(n, '='))
    end = before(part, len(part) - 1)
    value = simple(part[equals + 1:end])
    return part[:equals + 1] + [('ws', ' ')] + trim(value) + part[end:]


def simple(value):
    """Replaces a `match` by a shorter form, if there is one."""
    first = after(value, 0)
    if first < len(value) and is_id(value[first], 'return') and code(value[first + 1:]):
        return value[:first + 1] + [('ws', ' ')] + trim(simple(trim(value[first + 1:])))
    found = match_parts(value)
    if found is None:
        return value
    subject, group = found
    list_ = arms(group.items)
    if len(list_) != 2 or any(code(a.notes) or is_noted(a) for a in list_):
        return value
    by = {plain(a.pattern): a for a in list_}
    for shorter in (as_map, as_if_let, as_ok, as_truth):
        made = shorter(plain(subject), list_, by)
        if made is not None:
            return parse(made)
    return value


def is_noted(a):
    """Returns whether an arm has a comment."""
    return any(not isinstance(n, Group) and n[0] == 'com' for n in a.notes)


def as_map(subject, list_, by):
    """Returns the short form of `match x { Some(p) => Some(e), None => None }`."""
    none = by.get('None')
    some = next((a for p, a in by.items() if p.startswith('Some(')), None)
    if none is None or some is None or plain(none.body) != 'None':
        return None
    m = re.fullmatch(r'Some\((.*)\)', plain(some.body))
    name = plain(some.pattern)[5:-1]
    if not m or any(is_p(n, '?') for ns in walk(some.body) for n in ns) or 'return' in identifiers(some.body):
        return None
    if len(code(some.body)) != 2:
        return None
    made = m.group(1)
    subject = reference(subject)
    if made == f'{name}.clone()':
        return f'{subject}.cloned()' if not subject.endswith('.as_ref()') else f'{subject[:-9]}.clone()'
    if made in (f'&**{name}', f'&*{name}.0'):
        return f'{subject}.map(|{name}| {made})'
    called = re.fullmatch(rf'([\w:]+)\({re.escape(name)}\)', made)
    if called and re.fullmatch(r'\w+', name):
        return f'{subject}.map({called.group(1)})'
    return f'{subject}.map(|{name}| {made})'


def reference(subject):
    """Replaces `&x.y` by `x.y.as_ref()`."""
    m = re.fullmatch(r'&(mut )?([\w.]+)', subject)
    return f'{m.group(2)}.as_{"mut" if m.group(1) else "ref"}()' if m else subject


def as_if_let(subject, list_, by):
    """Returns the short form of `match x { p => e, None => () }`."""
    nothing = [a for a in list_ if plain(a.body) in NOTHING]
    others = [a for a in list_ if plain(a.body) not in NOTHING]
    if len(nothing) != 1 or not re.fullmatch(r'None|_|Ok\(_\w*\)|Err\(_\w*\)', plain(nothing[0].pattern)):
        return None
    if len(others) != 1:
        return None
    body = others[0].body
    if len(body) == 1 and is_group(body[0], '{'):
        inside = text(body[0].items)
    else:
        inside = ' ' + text(body) + '; '
    return f'if let {plain(others[0].pattern)} = {subject} {{{inside}}}'


def as_ok(subject, list_, by):
    """Returns the short form of `match x { Ok(a) => Some(a), Err(_) => None }`."""
    for p, a in by.items():
        m = re.fullmatch(r'Ok\((\w+)\)', p)
        if m and plain(a.body) == f'Some({m.group(1)})' and any(
                re.fullmatch(r'Err\(_\w*\)', q) and plain(b.body) == 'None' for q, b in by.items()):
            return f'{subject}.ok()'
    return None


def as_truth(subject, list_, by):
    """Returns the short form of `match x { Ok(_) => true, Err(_) => false }`."""
    shown = {re.sub(r'\(_\w*\)', '', p): plain(a.body) for p, a in by.items()}
    return f'{subject}.is_ok()' if shown == {'Ok': 'true', 'Err': 'false'} else None


def without_empty_else(nodes):
    """Replaces `if c {} else { .. }` by `if !c { .. }`, and removes an empty `else`."""
    out = []
    for n in nodes:
        j = before(out, len(out) - 1)
        if is_group(n, '{') and not code(n.items) and j >= 0 and is_id(out[j], 'else'):
            del out[before(out, j - 1) + 1:]
            continue
        if is_group(n, '{') and j >= 0 and is_id(out[j], 'else') and turned(out, j):
            del out[before(out, j - 1):]
        out.append(n)
    return out


def turned(out, j):
    """Negates the condition if the block before the `else` at `j` is empty. Returns whether it did."""
    empty = before(out, j - 1)
    start = max((k for k in range(empty) if is_id(out[k], 'if')), default=None)
    if start is None or not is_group(out[empty], '{') or code(out[empty].items) or is_id(out[after(out, start + 1)], 'let'):
        return False
    condition = trim(out[start + 1:empty])
    is_call = re.fullmatch(r'[\w.:]+', plain(condition[:-1])) and is_group(condition[-1], '(')
    out[start + 1:empty] = parse(' !') + (condition if is_call else [Group('(', condition)]) + parse(' ')
    return True


def without_last_return(nodes):
    """Removes `return;` at the end of a function."""
    list_ = statements(nodes)
    if not list_:
        return nodes
    start, stop, _ = list_[-1]
    part = nodes[start:stop]
    if plain(part) == 'return;':
        return nodes[:start] + nodes[stop:]
    if is_id(part[0], 'if'):
        part = [Group('{', without_last_return(n.items)) if is_group(n, '{') else n for n in part]
    return nodes[:start] + part + nodes[stop:]


def pushed(nodes):
    """Replaces a vector that is filled by one push by `vec![..]`."""
    nodes = [Group(n.open, pushed(n.items)) if isinstance(n, Group) else n for n in nodes]
    if any(is_p(n, '=>') for n in nodes):
        return nodes
    list_ = statements(nodes)
    for (a, b, _), (c, d, _) in zip(list_, list_[1:]):
        made = re.fullmatch(r'let mut (\w+) = Vec::new\(\);', plain(nodes[a:b]))
        put = made and re.fullmatch(rf'{made.group(1)}\.push\((.*)\);', plain(nodes[c:d]))
        rest = plain(nodes[d:]) if put else ''
        if put and not re.search(rf'\b{made.group(1)}\.push|for ', rest):
            changes = rf'&mut {made.group(1)}\b|\b{made.group(1)}\.(pop|insert|clear|append|extend|sort|retain|remove)'
            mut = 'mut ' if re.search(changes, rest) else ''
            return without_last_let(nodes[:a] + parse(f'let {mut}{made.group(1)} = vec![{put.group(1)}];') + nodes[d:])
    return nodes


def gathered(nodes, types):
    """Replaces a vector that is filled by a loop and then returned by an iterator with `collect`."""
    list_ = statements(nodes)
    if len(list_) < 3 or list_[-1][2]:
        return nodes
    (a, b, _), (c, d, _), (e, f, _) = list_[-3:]
    name = plain(nodes[e:f])
    made = re.fullmatch(rf'let mut {name} = Vec::(?:new|with_capacity)\(.*\);', plain(nodes[a:b]))
    loop = code(nodes[c:d])
    pairs = re.fullmatch(r'for \((\w+), (\w+)\) in (\w+) \{ (\w+)\.insert\(\1, \2\); \}', plain(nodes[c:d]))
    if pairs and pairs.group(4) == name and plain(nodes[a:b]) == f'let mut {name} = BTreeMap::new();':
        return nodes[:a] + parse(f'{pairs.group(3)}.into_iter().collect()') + nodes[f:]
    if not (made and re.fullmatch(r'\w+', name) and is_id(loop[0], 'for') and is_group(loop[-1], '{')):
        return nodes
    head = re.fullmatch(r'for (.*?) in (.*)', plain(nodes[c:before(nodes, d - 1)]))
    put = re.fullmatch(rf'{name}\.push\((.*)\);', plain(loop[-1].items))
    whole = text(loop[-1].items)
    if not put or ';' in put.group(1) or '?' in whole or '//' in whole or name in put.group(1):
        return nodes
    through = iterator(head.group(2), types)
    if through is None:
        return nodes
    return nodes[:a] + parse(through + mapped(head.group(1), put.group(1)) + '.collect()') + nodes[f:]


def iterator(subject, types):
    """Returns the iterator over the subject of a loop; `None` if there is no rule for it."""
    kind = types.get(subject, '')
    if kind.startswith('&'):
        return f'{subject}.iter()'
    if re.match(r'(mut )?Vec<|impl IntoIterator|HashSet<', kind):
        return f'{subject}.into_iter()'
    m = re.fullmatch(r'&([\w.]+)', subject)
    if m:
        return f'{m.group(1)}.iter()'
    return subject if re.fullmatch(r'[\w.]+\.(iter|values|keys)\(\)', subject) else None


def mapped(pattern, made):
    """Returns the adapter that makes each item."""
    if made == f'{pattern}.clone()':
        return '.cloned()'
    if made == f'*{pattern}':
        return '.copied()'
    called = re.fullmatch(rf'([\w:]+)\({pattern}\)', made)
    if called:
        return f'.map({called.group(1)})'
    return f'.map(|{pattern}| {made})'


def by_part(nodes, types):
    """Replaces a loop over a borrowed map that uses only keys or only values."""
    out = []
    for k, n in enumerate(nodes):
        if isinstance(n, Group):
            n = Group(n.open, by_part(n.items, types))
        out.append(n)
        j = before(out, len(out) - 2)
        if not (is_id(n) and re.match(r"&('\w+ )?HashMap<", types.get(n[1], '')) and j > 1 and is_id(out[j], 'in')):
            continue
        pattern = before(out, j - 1)
        m = is_group(out[pattern], '(') and re.fullmatch(r'(\w+), (\w+)', plain(out[pattern].items))
        if m and m.group(1).startswith('_'):
            out[pattern] = ('id', m.group(2))
            out += parse('.values()')
        elif m and m.group(2).startswith('_'):
            out[pattern] = ('id', m.group(1))
            out += parse('.keys()')
    return out
