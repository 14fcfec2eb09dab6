"""Replaces the calls of private functions that are one expression and have one caller by that expression.

A proof needs such a function for its contract. In the package it would only be a second name. A function whose name says
more than its expression is listed in `KEPT`. A function whose comment takes more than two lines stays too: it says what
the expression does not.
"""
import re

from rust_edition import idioms

# Names that say what an expression is for: classes of bytes and characters, bits, and numbers of a hash.
KEPT = set('''lowest_bit without_bit tabs_in is_line_byte is_id_part are_id_parts is_id is_extra_escape_byte uid_halves
is_bound_before may_contain is_short have_same_numbers has_ascii_eid has_no_templates has_no_policies with_bit'''.split())
FUNCTION = re.compile(
    r'^(?:[ ]*//[^\n]*\n|[ ]*#\[[^\n]*\n)*fn (?P<name>\w+)(?:<[^{}]*?>)?\((?P<params>[^{}]*?)\)(?: -> (?P<result>[^{}]*?))?'
    r'(?:\s*where[^{}]*?)?\s*\{\n    (?P<body>[^\n]+?)(?P<end>;?)\n\}\n\n?', re.M)
OPERATORS = ('&&', '||', '==', '!=', '<', '>', '<=', '>=', '+', '-', '*', '^', '&', '|', '<<', '>>', 'as')
GETTER = re.compile(r'(?!.*\.(?:next|take|pop)\()[\w.]+\(\)')
PLAIN_BEFORE = re.compile(r'(?:[({,;=]|\breturn|\bif|\|[\w, ()&*]*\||=>)\s*$')
PLAIN_AFTER = re.compile(r'\s*(?:[),;}]|\{|\n)')


def inlined(source):
    """Returns the text of a formatted file without its wrappers."""
    kept = set()
    while True:
        found = next((m for m in FUNCTION.finditer(source) if m['name'] not in kept | KEPT and is_wrapper(m)), None)
        if found is None:
            return source
        kept.add(found['name'])
        rest = source[:found.start()] + source[found.end():]
        replaced = with_body(rest, found)
        if replaced is not None:
            source = without_unused_imports(replaced, set(re.findall(r'\w+', found.group())))


def without_unused_imports(source, names):
    """Returns a text without the imports of those of the names that it no longer uses."""
    for name in names:
        uses = re.findall(rf'\b{name}\b', source)
        line = re.search(rf'^use [^;]*\b{name}\b[^;]*;\n', source, re.M)
        if len(uses) != 1 or line is None:
            continue
        shorter = re.sub(rf',\s*{name}\b(?=[,\s}}])|(?<=[{{\s]){name},\s*', '', line.group(), count=1)
        source = source.replace(line.group(), '' if shorter == line.group() else shorter)
    return source


def is_wrapper(found):
    """Returns whether the body of a function can stand in the place of a call."""
    body = found['body']
    names = set(re.findall(r'(\w+):', found['params']))
    is_plain = '?' not in body and 'return' not in body and not body.startswith(('if ', 'match ', 'for '))
    return is_plain and not bound_names(body) & names and len(re.findall(r'^ *//', found.group(), re.M)) <= 2


def bound_names(body):
    """Returns the names that the closures of an expression bind."""
    return set(re.findall(r'\w+', ' '.join(re.findall(r'\|([^|]*)\|', body))))


def with_body(rest, found):
    """Returns a text with the body of a function in the place of its only call, or `None` if that is not possible."""
    mentions = list(re.finditer(rf'(?<![\w.:]){found["name"]}\b', rest))
    if len(mentions) != 1 or re.search(rf'[.:]{found["name"]}\b', rest):
        return None
    begin, opening = mentions[0].start(), mentions[0].end()
    if rest[opening:opening + 1] != '(' or rest.rfind('//', rest.rfind('\n', 0, begin) + 1, begin) >= 0:
        return None
    end = closing(rest, opening)
    arguments = split_at_commas(rest[opening + 1:end])
    names = [re.match(r'(?:mut )?(\w+):', one) for one in split_at_commas(found['params'])]
    if len(arguments) != len(names) or None in names:
        return None
    if re.fullmatch(r'\w+ == \w+', found['body']) and any('(' in argument for argument in arguments):
        return None  # the call dereferences its arguments, the comparison does not
    if bound_names(found['body']) & set(re.findall(r'\w+', ' '.join(arguments))):
        return None
    body = substituted(found['body'], dict(zip([name[1] for name in names], arguments)))
    if body is None:
        return None
    if rest[:begin].endswith('!') and (len(operators(body)) > 0 or idioms.negated(body) != '!' + body):
        begin, body = begin - 1, idioms.negated(body)
    before, after = rest[:begin], rest[end + 1:]
    if operators(body) and after[:1] in ('.', '?'):
        return None
    is_plain = PLAIN_BEFORE.search(before) and PLAIN_AFTER.match(after)
    is_in_chain = operators(body) <= {'&&', '==', '!=', '<', '>', '<=', '>='} and not re.search(r'[!.+*<>=-]$|[=<>] $', before) and (
        re.match(r'\s*(?:&&|[),;{}]|\n)', after))
    if operators(body) and not is_plain and not is_in_chain:
        body = f'({body})'
    return before + body + after


def operators(body):
    """Returns the operators of an expression that are outside of parentheses."""
    return {operator for operator in OPERATORS if len(idioms.split_at(body, operator)) > 1}


def closing(text, opening):
    """Returns the index of the parenthesis that closes the one at an index."""
    depth = 0
    for at in range(opening, len(text)):
        depth += (text[at] in '([{') - (text[at] in ')]}')
        if depth == 0:
            return at
    raise ValueError('a parenthesis is not closed')


def split_at_commas(text):
    """Returns the parts of a text between its outermost commas."""
    parts, depth, start = [], 0, 0
    for at, char in enumerate(text):
        depth += (char in '([{<') - (char in ')]}>')
        if char == ',' and depth == 0:
            parts.append(text[start:at].strip())
            start = at + 1
    return [part for part in parts + [text[start:].strip()] if part]


def substituted(body, arguments):
    """Returns a body with arguments for its parameters, or `None` if that would change what is evaluated.

    An argument with a call is used once. Unless it is a getter, it is used before any `&&`, `||` and closure. A reference is dropped before a method call, with `*`, and in a format string.
    """
    for name, argument in arguments.items():
        uses = len(re.findall(rf'(?<!\w)(?<!(?<!\.)\.){name}\b(?!!)', body))
        is_simple = re.fullmatch(r'(?:&(?:mut )?)?[\w.]+', argument)
        if not uses or uses > 1 and not is_simple or not re.fullmatch(r'[\w.:&()\[\] +-]+', argument):
            return None
        if '(' in argument and not GETTER.fullmatch(argument) and re.search(r'&&|\|', body[:re.search(rf'(?<!\w)(?<!(?<!\.)\.){name}\b', body).start()]):
            return None
        if re.search(rf'&{name}\b(?!\[)', body) or f'{{{name}}}' in body and not re.fullmatch(r'&?\w+', argument):
            return None

    def argument_for(use):
        argument = arguments[use['name']]
        bare = re.sub(r'^&(?:mut )?', '', argument)
        drops_reference = use['star'] and bare != argument or use['after'] or use['brace']
        return (use['brace'] or '') + (bare if drops_reference else (use['star'] or '') + argument)

    names = '|'.join(arguments) or '(?!)'
    return re.sub(rf'(?P<star>\*)?(?P<brace>{{)?(?<!\w)(?<!(?<!\.)\.)(?P<name>{names})\b(?!!)(?=(?P<after>[.\[])?)', argument_for, body)
