"""Rewrites functions that return a `bool` into the expressions that a person would write.

A proof goes over a loop or a `match` step by step, so the text of the layer has these forms. In the package:

- a loop that looks for an item is `any` or `all`
- a `match` on an option with `false` for one case is `is_some_and` or `is_none() && ..`
- an early `return` before one expression is `&&` or `||`

A function stays as it is if its new body would be longer than `MOST` characters.
"""
import re

MOST = 150
FUNCTION = re.compile(r'^(?P<indent> *)(?:pub(?:\([^)]*\))? )?(?:const )?fn \w+(?:<[^{}();]*?>)?\((?P<params>[^{}]*?)\) -> bool'
                      r'(?:\s*where[^{}]*?)?\s*\{\n(?P<body>.*?)^(?P=indent)\}\n', re.M | re.S)
OPPOSITES = {'==': '!=', '!=': '==', '<': '>=', '>=': '<', '>': '<=', '<=': '>'}
COMPARISON = re.compile(r'(?P<left>[^&|<>=!]+?) (?P<operator>==|!=|<=|>=|<|>) (?P<right>[^&|<>=!]+)')
LOOP = re.compile(r'for (?P<item>[^\n]+?) in (?P<items>[^\n]+) \{\nif (?P<test>[^\n]+) \{\nreturn (?P<found>true|false);\n\}\n\}\n(?P<end>true|false)\n')
MATCH = re.compile(r'match (?P<option>[^\n]+) \{\n(?:None => (?P<none>[^\n]+),\nSome\((?P<item>\w+)\) => (?P<some>[^\n]+),'
                   r'|Some\((?P<item_2>\w+)\) => (?P<some_2>[^\n]+),\nNone => (?P<none_2>[^\n]+),)\n\}\n')
LET_ELSE = re.compile(r'let Some\((?P<item>\w+)\) = (?P<option>[^\n]+) else \{\nreturn (?P<none>true|false);\n\};\n(?P<rest>[^\n;{}]+)\n')
GUARD = re.compile(r'if (?P<test>[^\n]+) \{\nreturn (?P<value>true|false);\n\}\n(?P<rest>[^\n;{}]+)\n')
BRANCHES = re.compile(r'if (?P<test>[^\n]+) \{\n(?P<then>[^\n;{}]+)\n\} else \{\n(?P<otherwise>[^\n;{}]+)\n\}\n')


def idiomatic(source):
    """Returns the text of a formatted file with such bodies rewritten."""
    def rewritten(found):
        body = re.sub(r'^ +', '', found['body'], flags=re.M)
        if '//' in body or 'unsafe' in body:
            return found.group()
        # A chain of methods that rustfmt has broken is one line again.
        body = re.sub(r'\n(?=\.\w|&& |\|\| )', lambda m: ' ' if m.string[m.end()] in '&|' else '', body)
        new = with_idioms(body, found['params'])
        if new == body or len(new.strip().split('\n')[-1]) > MOST:
            return found.group()
        begin = found.start('body') - found.start()
        return found.group()[:begin] + new + found['indent'] + '}\n'
    return FUNCTION.sub(rewritten, source)


def with_idioms(body, params):
    """Returns the unindented body of a function with all idioms that apply at its end."""
    while True:
        new = body
        for pattern, form in ((LOOP, with_loop), (MATCH, with_match), (LET_ELSE, with_let_else), (GUARD, with_guard),
                              (BRANCHES, with_branches)):
            found = next((m for m in pattern.finditer(new) if m.end() == len(new)), None)
            text = found and form(found, params)
            if text:
                new = new[:found.start()] + text + '\n'
        if new == body:
            return body
        body = new


def with_loop(found, params):
    """Returns `any` or `all` for a loop that looks for an item, or `None`."""
    items = iterator(found['items'], params)
    if found['found'] == found['end'] or items is None:
        return None
    if found['found'] == 'true':
        return f'{items}.any(|{found["item"]}| {found["test"]})'
    return f'{items}.all(|{found["item"]}| {negated(found["test"])})'


def iterator(items, params):
    """Returns an expression that iterates over the items of a loop by `any` and `all`, or `None` if none is known."""
    if '..' in items:
        return f'({items})'
    if re.fullmatch(r'&[\w.]+', items):
        return f'{items[1:]}.iter()'
    kind = re.search(rf'\b{items}: ([^,]+)', params) if re.fullmatch(r'\w+', items) else None
    if kind and kind[1].startswith(('&[', '&Vec<', '&SharedMap<', '&SharedSet<')):
        return f'{items}.iter()'
    if re.search(r'\.(shared_parents|shared_ancestors|ancestors|parents|iter|keys|values)\(\)$', items):
        return items
    return f'{items}.iter()' if items.startswith('listed_for(') else None


def with_match(found, params):
    """Returns `is_some_and` or `is_none() && ..` for a `match` on an option, or `None`."""
    option, none = found['option'], found['none'] or found['none_2']
    item, some = found['item'] or found['item_2'], found['some'] or found['some_2']
    if some == 'false' and none not in ('true', 'false') and item == '_':
        return f'{option}.is_none() && {grouped(none, "||")}'
    if none != 'false' or item == '_' or some in ('true', 'false') or '{' in some:
        return None
    return some_and(option, item, some, params)


def with_let_else(found, params):
    """Returns `is_some_and` or `is_none_or` for a `let .. else` before one expression, or `None`."""
    text = some_and(found['option'], found['item'], found['rest'], params)
    return text and (text if found['none'] == 'false' else text.replace('.is_some_and(', '.is_none_or('))


def some_and(option, item, test, params):
    """Returns `is_some_and` on an option, or `None` if the option is more than a name or a call."""
    if not re.fullmatch(r'[\w.:]+(?:\(.*\))?', option) or '?' in option + test:
        return None
    is_borrowed = re.search(rf'\b{option}: &', params) if re.fullmatch(r'\w+', option) else None
    return f'{option}{".as_ref()" if is_borrowed else ""}.is_some_and(|{item}| {test})'


def with_guard(found, params):
    """Returns `&&` or `||` for an early `return` before one expression, or `None`."""
    del params
    if ' let ' in f' {found["test"]}' or found['rest'] in ('true', 'false'):
        return None
    if found['value'] == 'true':
        return f'{grouped(found["test"], "&&")} || {grouped(found["rest"], "&&")}'
    return f'{grouped(negated(found["test"]), "||")} && {grouped(found["rest"], "||")}'


def with_branches(found, params):
    """Returns `==` for two branches that are opposites, or `None`."""
    del params
    if found['otherwise'] != negated(found['then']) or not re.fullmatch(r'[\w.]+\([^()]*(?:\([^()]*\)[^()]*)*\)', found['then']):
        return None
    if '&mut' in found.group():
        return None
    return f'{found["test"]} == {found["then"]}'


def grouped(text, operator):
    """Returns an expression in parentheses if it has the operator outside of parentheses."""
    return f'({text})' if len(split_at(text, operator)) > 1 else text


def split_at(text, operator):
    """Returns the parts of an expression between an operator outside of parentheses."""
    parts, depth = [''], 0
    for word in re.split(r'( )', text):
        depth += len(re.findall(r'[(\[{]', word)) - len(re.findall(r'[)\]}]', word))
        if word == operator and depth == 0:
            parts.append('')
        else:
            parts[-1] += word
    return [part.strip() for part in parts]


def negated(test):
    """Returns the opposite of a test."""
    for operator, opposite in (('||', '&&'), ('&&', '||')):
        parts = split_at(test, operator)
        if len(parts) > 1 and not any(len(split_at(part, opposite)) > 1 for part in parts):
            return f' {opposite} '.join(negated(part) for part in parts)
    if re.fullmatch(r'![\w.:]+(?:\(.*\))?', test) and is_one_call(test[1:]):
        return test[1:]
    comparison = COMPARISON.fullmatch(test)
    if comparison:
        return f'{comparison["left"]} {OPPOSITES[comparison["operator"]]} {comparison["right"]}'
    for old, new in (('.is_none()', '.is_some()'), ('.is_some()', '.is_none()'), ('.is_lt()', '.is_ge()'), ('.is_ge()', '.is_lt()')):
        if test.endswith(old) and is_one_call(test):
            return test[:-len(old)] + new
    return f'!{test}' if re.fullmatch(r'[\w.:]+(?:\(.*\))?', test) and is_one_call(test) else f'!({test})'


def is_one_call(text):
    """Returns whether an expression has no operator outside of parentheses."""
    return all(len(split_at(text, operator)) == 1 for operator in ('||', '&&', '==', '!=', '<', '>', '<=', '>=', '+', '-'))
