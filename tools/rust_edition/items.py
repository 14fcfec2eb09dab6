"""Rewrites the items of a file: functions with their results, and errors with their messages.

Also removes the items that the package does not have.
"""
import re
from .bodies import Place, without_allocators, without_memory_arms, without_ok, without_questions
from .functions import Function, functions, header, is_allocator, is_function, kind_of, owner_of, starts_item
from .trees import (Group, after, before, code, is_code, is_comment, is_group, is_id, is_p, parse, plain, split, text,
                    trim, angle_end)
from .copies import derived
from .forms import natural
from .self_types import self_type, with_self
from .general_parameters import generalized


# The traits that a type can derive, in the order in which they are written.
DERIVES = ('Clone', 'Copy', 'Debug', 'Default', 'PartialEq', 'Eq', 'PartialOrd', 'Ord', 'Hash')


def drop_notes(out):
    """Removes the comments and attributes at the end."""
    while out:
        if not is_code(out[-1]) and not (is_comment(out[-1]) and out[-1][1].startswith('//!')):
            out.pop()
        elif is_group(out[-1], '[') and len(out) > 1 and is_p(out[-2], '#'):
            del out[-2:]
        elif is_id(out[-1]) and out[-1][1] in ('pub', 'const') or is_group(out[-1], '(') and is_id(out[-2], 'pub'):
            out.pop()
        else:
            break
    out.append(('ws', '\n\n'))


class File:
    """A source: its tree, and the data on its functions."""

    def __init__(self, crate, module, nodes, imports):
        self.crate, self.module, self.nodes, self.imports = crate, module, nodes, imports
        self.copied = derived(nodes)

    def place(self, table, owner, choices):
        """Returns the place of a function in this file."""
        return Place(table, self.crate, self.module, owner, self.imports, choices)


class Writer:
    """Rewrites the items of files."""

    def __init__(self, table, lists):
        self.table, self.lists, self.unknown, self.moved = table, lists, [], []

    def kind(self, file, f, owner):
        """Returns the kind of the result of a function, after functions that cannot fail were found."""
        kind = kind_of(f.answer)
        if kind == 'result':
            if owner is None:
                kind = self.table.free[file.crate, f.name].get(file.module, kind)
            elif self.table.owned[owner, f.name] == {'memory'}:
                kind = 'memory'
        return kind

    def items(self, nodes, file, owner=None, trait=None):
        """Rewrites items."""
        out, i = [], 0
        while i < len(nodes):
            n = nodes[i]
            if is_id(n) and n[1] in ('impl', 'trait') and starts_item(nodes, i):
                i = self.block(nodes, i, file, out)
            elif is_id(n, 'mod') and is_group(nodes[after(nodes, after(nodes, i + 1) + 1)], '{'):
                j = after(nodes, after(nodes, i + 1) + 1)
                out += nodes[i:j] + [Group('{', self.items(nodes[j].items, file))]
                i = j + 1
            elif is_p(n, '#') and is_derive(nodes, i):
                i = self.derive(nodes, i, file, out)
            elif is_id(n, 'enum'):
                i = self.enum(nodes, i, out)
            elif is_id(n, 'struct') and nodes[after(nodes, i + 1)][1] in self.lists.dropped_types:
                drop_notes(out)
                while not is_group(nodes[i], '{') and not is_p(nodes[i], ';'):
                    i += 1
                i += 1
            elif is_function(nodes, i):
                i = self.function(nodes, i, file, owner, trait, out)
            else:
                out.append(n)
                i += 1
        return out

    def block(self, nodes, i, file, out):
        """Rewrites an `impl` or a `trait`. Returns the index after it."""
        j, head = header(nodes, i)
        owner, trait = owner_of(head)
        by_hand = (owner, trait) in self.lists.dropped_impls or trait == 'Clone' and owner in file.copied
        by_hand = by_hand or is_id(nodes[i], 'trait') and nodes[after(nodes, i + 1)][1] in self.lists.dropped_types
        if re.search(r'From<Alloc(Error|Failed)', head) or by_hand:
            drop_notes(out)
            return j + 1
        self.moved = []
        inner = self.items(nodes[j].items, file, owner, trait or ('trait' if is_id(nodes[i], 'trait') else None))
        if not code(inner) and not trait:
            drop_notes(out)
            return j + 1
        kind = self_type(head)
        if is_id(nodes[i], 'impl') and kind.startswith(owner):
            inner = with_self(inner, owner, kind)
        out += nodes[i:j] + [Group('{', inner)]
        for answer, method in self.moved:
            out += parse(f'\n\nimpl AsRef<{answer}> for {owner} ') + [Group('{', with_self(method, owner, kind))]
        return j + 1

    def derive(self, nodes, i, file, out):
        """Rewrites a `derive` so that it has only the traits of std. Returns the index after it."""
        j = after(nodes, i + 1)
        listed = list(code(nodes[j].items)[1].items)
        k = next(k for k in range(j, len(nodes)) if is_id(nodes[k]) and nodes[k][1] in ('struct', 'enum'))
        name = nodes[after(nodes, k + 1)][1]
        if name in file.copied:
            listed.insert(0, ('id', 'Clone'))
        names = {n[1] for n in code(listed) if is_id(n)}
        is_error = 'Error' in names
        names |= {'Clone', 'PartialEq', 'Eq'} if is_error else set()
        names |= self.lists.more_derives.get(name, set())
        names = [trait for trait in DERIVES if trait in names and (name, trait) not in self.lists.derived_by_hand]
        if names:
            out += parse(f'#[derive({", ".join(names)})]' + ('\n#[non_exhaustive]' if name in self.lists.growing else ''))
            return j + 1
        return after(nodes, j + 1)

    def enum(self, nodes, i, out):
        """Rewrites an `enum`: removes the variant `Memory`, and adds the messages of an error. Returns the index after
        it.
        """
        j = i
        while not is_group(nodes[j], '{'):
            j += 1
        parts = split(nodes[j].items)
        name = nodes[after(nodes, i + 1)][1]
        remaining = [p for p in parts if variant(p)[0] != 'Memory']
        texts = [(variant(p), error_text(p)) for p in remaining]
        variants = [without_error(p) for p in remaining]
        body = []
        for p in variants:
            body += [('ws', '\n')] + trim(p) + [('p', ',')]
        out += nodes[i:j] + [Group('{', body + [('ws', '\n')])]
        if all(t for _, t in texts) and texts:
            out += parse(display(name, plain(nodes[after(nodes, i + 1) + 1:j]), texts))
        return j + 1

    def without_unused(self, nodes, file):
        """Removes arguments that only contracts use from the calls of functions of the file."""
        out = []
        for n in nodes:
            if isinstance(n, Group):
                n = Group(n.open, self.without_unused(n.items, file))
                j = before(out, len(out) - 1)
                places = self.unused_places(out, j, file) if n.open == '(' and j >= 0 and is_id(out[j]) else ()
                if places:
                    remaining = [p for k, p in enumerate(split(n.items)) if k not in places]
                    n.items[:] = parse(', '.join(plain(p) for p in remaining))
            out.append(n)
        return out

    def unused_places(self, out, j, file):
        """Returns the positions of the arguments that only contracts use."""
        names = self.lists.unused.get((file.module, out[j][1]))
        if not names:
            return ()
        f = next(f for f, owner, _ in functions(file.nodes) if f.name == out[j][1] and owner is None)
        params = [p for p in f.params if not is_allocator(p)]
        return [k for k, p in enumerate(params) if parameter_name(p) in names]

    def function(self, nodes, i, file, owner, trait, out):
        """Rewrites a function. Returns the index after it."""
        f = Function(nodes, i)
        if f.answer == 'Global' or (owner or file.module, f.name) in self.lists.dropped:
            drop_notes(out)
            return f.end + 1
        memory = self.kind(file, f, owner) == 'memory'
        answer = f.answer
        if memory:
            answer = first_argument(answer)
        unit = answer in ('', '()')
        unused = self.lists.unused.get((file.module, f.name), ())
        params = [p for p in f.params if not is_allocator(p) and parameter_name(p) not in unused]
        place = file.place(self.table, owner, self.lists.choices)
        body = f.body
        if body is not None:
            body = without_memory_arms(without_questions(without_allocators(body), place))
            body = self.without_unused(body, file)
            if memory:
                body = without_ok(body, unit, place)
            body = natural(body, answer, types_of(params))
        self.unknown += [u + f' (in {f.name})' for u in place.unknown]
        texts = [re.sub(r": &('\w+ )?Vec<(.*)>$", r': &\1[\2]', plain(p)) for p in params]
        generics = text(nodes[f.generics[0]:f.generics[1]])
        modes = self.lists.general.get((owner or file.module, f.name))
        if modes:
            texts, body = generalized(texts, body, modes)
        texts, answer, generics = elided(texts, answer, generics)
        tail = '' if unit else f' -> {answer}'
        self.mark(f, file, owner, out)
        written = parse(f'fn {f.name}{generics}({", ".join(texts)}){tail} {f.where} ')
        written.append(Group('{', body) if body is not None else ('p', ';'))
        if f.name == 'as_ref' and trait is None:
            drop_notes(out)
            self.moved.append((answer[1:], written))
        else:
            out += written
        return f.end + 1

    def mark(self, f, file, owner, out):
        """Sets the visibility of a function, and marks it `#[inline]` if it is listed."""
        if (owner or file.module, f.name) in self.lists.hidden:
            hide(out)
        is_inlined = re.search(r'#\[inline(\(\w+\))?\]\s*$', text(out[max(0, visibility(out) - 8):visibility(out)]))
        if (file.crate, file.module) in self.lists.inlined and f.name != 'fmt' and not is_inlined:
            out[visibility(out):] = parse('#[inline]\n') + out[visibility(out):]


def elided(texts, answer, generics):
    """Removes the lifetime `'a` if the signature has only one reference."""
    joined = ', '.join(texts)
    named = re.fullmatch(r"<'a(?:, (.*))?>", generics.strip(), re.S)
    if not named or joined.count("'a") != 1 or joined.count('&') + joined.count("<'") != 1:
        return texts, answer, generics
    texts = [p.replace("&'a ", '&').replace("<'a", "<'_") for p in texts]
    rest = f'<{named.group(1)}>' if named.group(1) else ''
    return texts, answer.replace("&'a ", '&').replace("<'a", "<'_"), rest


def parameter_name(p):
    """Returns the name of a parameter."""
    return re.sub(r'^mut ', '', plain(p)).split(':')[0].strip()


def is_derive(nodes, i):
    """Returns whether an attribute is a `derive`."""
    g = nodes[after(nodes, i + 1)]
    return is_group(g, '[') and is_id(code(g.items)[0], 'derive')


def hide(out):
    """Replaces `pub` before a function by `pub(crate)`."""
    j = before(out, len(out) - 1)
    if is_id(out[j], 'pub'):
        out.insert(j + 1, Group('(', [('id', 'crate')]))


def visibility(out):
    """Returns the index of the last `pub` or `pub(crate)`, or the length if there is none at the end."""
    j = before(out, len(out) - 1)
    if j > 0 and is_group(out[j], '(') and is_id(out[j - 1], 'pub'):
        return j - 1
    return j if j >= 0 and is_id(out[j], 'pub') else len(out)


def types_of(params):
    """Returns the types of parameters by name."""
    pairs = [re.sub(r'^mut ', '', plain(p)).split(':', 1) for p in params]
    types = {p[0].strip(): p[1].strip() for p in pairs if len(p) == 2}
    if params and plain(params[0]).startswith('&'):
        types['self'] = '&Self'
    return types


def first_argument(answer):
    """Returns `T` for `Result<T, E>`."""
    nodes = parse(answer)
    o = next(k for k, n in enumerate(nodes) if is_p(n, '<'))
    return plain(split(nodes[o + 1:angle_end(nodes, o)])[0])


def variant(part):
    """Returns the name and the fields of a variant."""
    cs = code(part)
    while is_p(cs[0], '#'):
        cs = cs[2:]
    return cs[0][1], (cs[1] if len(cs) > 1 else None)


def error_text(part):
    """Returns the contents of the attribute `#[error(..)]` of a variant; `None` if there is none."""
    cs = code(part)
    for k, n in enumerate(cs):
        if is_group(n, '[') and is_id(code(n.items)[0], 'error'):
            return code(n.items)[1]
    return None


def without_error(part):
    """Returns a variant without `#[error(..)]`."""
    out = []
    for n in part:
        if is_group(n, '[') and is_id(code(n.items)[0], 'error'):
            while not is_p(out[-1], '#'):
                out.pop()
            out.pop()
            continue
        out.append(n)
    return out


def display(name, generics, texts):
    """Returns the implementations of `Display` and `Error` for an enum whose variants have messages."""
    arms = []
    for (variant_name, fields), said in texts:
        literal, args = said.items[0][1], plain(said.items[1:])
        arms.append(arm(f'Self::{variant_name}', fields, literal, args))
    if re.search(r"'\w", generics):
        raise AssertionError(name)
    plain_generics = re.sub(r':[^,>]*', '', generics)
    return f'''

impl{generics} fmt::Display for {name}{plain_generics} {{
    fn fmt(&self, f: &mut fmt::Formatter<'_>) -> fmt::Result {{
        match self {{ {' '.join(arms)} }}
    }}
}}

impl{generics} Error for {name}{plain_generics} {{{source(texts)}}}
'''


def source(texts):
    """Returns the method `source` for an enum of errors: the error that a variant contains, if there is one."""
    arms = [a for a in (source_arm(name, fields) for (name, fields), _ in texts) if a]
    if not arms:
        return ''
    if len(arms) < len(texts):
        arms.append('_ => None,')
    return f'''
    /// Returns the error that the variant contains, if there is one.
    fn source(&self) -> Option<&(dyn Error + 'static)> {{
        match self {{ {' '.join(arms)} }}
    }}
'''


def source_arm(name, fields):
    """Returns the match arm that returns the error in a variant; `None` if the variant contains no error."""
    for k, part in enumerate(split(fields.items) if fields is not None else []):
        if not re.search(r'Error\b', plain(part)):
            continue
        if fields.open == '(':
            places = ['_'] * len(split(fields.items))
            places[k] = 'error'
            return f'Self::{name}({", ".join(places)}) => Some(error),'
        return f'Self::{name} {{ {field_name(part)}, .. }} => Some({field_name(part)}),'
    return None


def arm(path, fields, literal, args):
    """Returns the match arm that writes a variant."""
    names = [part_name(p) for p in split(fields.items)] if fields is not None and fields.open == '(' else []
    args = re.sub(r'(?<![\w)\]])\.(\d+)', lambda m: names[int(m.group(1))], args)
    args = re.sub(r'(?<![\w)\]])\.([a-z_]\w*)', r'\1', args)
    literal = re.sub(r'\{(\d+)\}', lambda m: '{' + names[int(m.group(1))] + '}', literal)
    pattern = ''
    used = literal + args
    if names:
        pattern = '(' + ', '.join(n if n in used else '_' for n in names) + ')'
    elif fields is not None:
        names = [field_name(p) for p in split(fields.items)]
        remaining = [n for n in names if re.search(rf'\b{n}\b', used)]
        dots = [] if len(remaining) == len(names) else ['..']
        pattern = ' { ' + ', '.join(remaining + dots) + ' }'
    if '{' not in literal:
        return f'{path}{pattern} => f.write_str({literal}),'
    return f'{path}{pattern} => write!(f, {literal}{args}),'


def part_name(part):
    """Returns a name for a part of a tuple variant, from its type."""
    kind = re.sub(r'<.*', '', plain([n for n in part if not is_group(n, '[') and not is_p(n, '#')]))
    word = re.findall(r'[A-Z]+(?![a-z])|[A-Z][a-z]+', kind)[-1].lower()
    return {'empty': 'uids', 'string': 'key'}.get(word, word)


def field_name(part):
    """Returns the name of a field."""
    cs = code(part)
    while is_p(cs[0], '#'):
        cs = cs[2:]
    return [n for n in cs if is_id(n) and n[1] != 'pub'][0][1]


def without_bounds(source):
    """Returns a text whose structs and enums have no bounds: the implementations have them. `Debug` needs no hasher."""
    head = re.compile(r'(?<![\w`])((?:struct|enum) \w+)<([^<>{}();]*)>(?= *[{(;])')
    bound = re.compile(r'(?<=\w): [^,=]*?(?= *(?:,|=|$))')
    source = head.sub(lambda m: f'{m.group(1)}<{bound.sub("", m.group(2))}>', source)
    return re.sub(r'\bimpl<S: BuildHasher(?: \+ Clone)?> (fmt::Debug for )', r'impl<S> \1', source)
