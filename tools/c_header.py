#!/usr/bin/env python3
"""Writes callers/c/cedar/nulls.h, the checks of pointers before each call from C. Run it at the top of the repository.

    tools/c_header.py            writes the file
    tools/c_header.py --check    checks that it is current, and the form of the headers
    tools/c_header.py --names    prints the names of the functions that the library exports

The form: each function that can fail has CEDAR_WARN_UNUSED, and a function has at most eight lines of comment. The last
line of a check is `N passed, M failed`.
"""
import re
import sys

FOLDER = 'callers/c/cedar/'
HEADERS = ('values.h', 'store.h', 'policies.h')
OUTPUT = FOLDER + 'nulls.h'
COMMENT_LINES = 8
DECLARATION = re.compile(r'(?P<comment>/\*(?:(?!\*/).)*\*/\n)?(?P<unused>CEDAR_WARN_UNUSED )?(?P<result>\w+) '
                         r'(?P<name>cedar_\w+)\((?P<parameters>[^)]*)\);', re.S)
HEAD = '''/* Checks of pointers before each call. Written by tools/c_header.py from the other headers: do not edit.
 *
 * Each function here has the parameters of the function of the library that its macro replaces. cedar.h says what a
 * null pointer means. The checks are tested, not proved. With CEDAR_UNCHECKED defined there are no macros. */
#ifndef CEDAR_NULLS_H
#define CEDAR_NULLS_H

#include "policies.h"
#include "store.h"

#ifdef __cplusplus
extern "C" {
#endif

/* Returns the address of a list without elements. */
static inline void *cedar_empty_list(void) {
    static uint64_t empty[2];
    return empty;
}
'''
TAIL = '''
#ifdef __cplusplus
}
#endif

#ifndef CEDAR_UNCHECKED
%s
/* In C `cedar_status_text` returns a text that ends with a zero. The function of the library is
 * `cedar_status_copy_text`. */
#define cedar_status_copy_text cedar_checked_status_text
#undef cedar_status_text
#define cedar_status_text cedar_status_words
#endif
#endif
'''
# What a function with a result returns for a null handle, and for another wrong pointer.
FAILURES = {'cedar_status': ('return CEDAR_CLOSED;', 'return CEDAR_BAD_ARGUMENT;'), 'bool': ('', 'return false;'),
            'void': ('return;', 'return;'), 'size_t': ('return 0;', 'return 0;')}
PASSED, FAILED = [0], []


def read(path):
    with open(path, encoding='utf-8') as file:
        return file.read()


def declarations():
    """Returns the declarations of the headers."""
    return [found for name in HEADERS for found in DECLARATION.finditer(read(FOLDER + name))]


def parameters_of(declaration):
    """Returns the parameters as pairs of a type and a name."""
    text = re.sub(r'\s+', ' ', declaration['parameters'])
    return [] if text == 'void' else [re.fullmatch(r'(.*?)(\w+)', one.strip()).groups() for one in text.split(',')]


def pointer_checks(parameters, failed):
    """Returns the lines that check the pointers. `failed` is the return for a bad argument."""
    names, lines, handles = [name for _, name in parameters], [], []
    for place, (kind, name) in enumerate(parameters):
        if '*' not in kind:
            continue
        length = names[place + 1] if names[place + 1:] and names[place + 1] in (f'{name}_len', 'capacity') else None
        if re.match(r'cedar_(store|policies) \*', kind):
            handles.append(name)
        elif length is None:
            lines.append(f'if (!{name}) {failed}')
        elif length == 'capacity' and 'return 0;' in failed:
            lines.append(f'if (!{name}) capacity = 0, {name} = ({kind.strip()})cedar_empty_list();')
        else:
            lines.append(f'if (!{name} && {length}) {failed}')
            lines.append(f'if (!{name}) {name} = ({kind.strip()})cedar_empty_list();')
    return handles, lines


def checked_name(name):
    """Returns the name of the checked function."""
    return name.replace('cedar_', 'cedar_checked_', 1)


def wrapper(declaration):
    """Returns the checked function for a declaration, or nothing if it takes no pointer."""
    parameters, name, result = parameters_of(declaration), declaration['name'], declaration['result']
    if not any('*' in kind for kind, _ in parameters):
        return ''
    closed, bad = FAILURES[result]
    handles, lines = pointer_checks(parameters, bad)
    checks = [f'if ({" || ".join("!" + one for one in handles)}) {closed}'] if handles else []
    if len(handles) == 2:
        checks.append(f'if ({handles[0]} == {handles[1]}) {bad}')
    checked = checked_name(name)
    head = (declaration['unused'] or '') + f'static inline {result} {checked}('
    text = wrapped(head, [kind + one for kind, one in parameters], ') {')
    body = ''.join(f'    {line}\n' for line in checks + lines)
    returned = wrapped(f'    {"" if result == "void" else "return "}{name}(', [one for _, one in parameters], ');')
    return f'\n{text}\n{body}{returned}\n}}\n'


def wrapped(head, items, end):
    """Returns a list of items after a head, in lines of at most 120 columns."""
    lines = [head]
    for place, item in enumerate(items):
        last = place == len(items) - 1
        text = item + (end if last else ',')
        space = '' if lines[-1].endswith('(') else ' '
        if len(lines[-1] + space + text) > 120:
            lines.append(' ' * min(head.index('(', 6), 68) + ' ' + text)
        else:
            lines[-1] += space + text
    return '\n'.join(lines)


def written():
    """Returns the text of the file."""
    names = [found['name'] for found in declarations() if wrapper(found)]
    macros = ''.join(f'#define {name} {checked_name(name)}\n' for name in names)
    return HEAD + ''.join(map(wrapper, declarations())) + TAIL % macros


def check(fault, is_valid):
    if is_valid:
        PASSED[0] += 1
    else:
        FAILED.append(fault)
        print(f'c_header: FAILED: {fault}')


def main():
    if sys.argv[1:] == ['--names']:
        print('\n'.join(sorted(found['name'] for found in declarations())))
    elif sys.argv[1:] == ['--check']:
        check(f'{OUTPUT} is not current: run python3 tools/c_header.py', read(OUTPUT) == written())
        for found in declarations():
            name, comment = found['name'], found['comment'] or ''
            check(f'{name} has {comment.count(chr(10))} lines of comment', 1 <= comment.count('\n') <= COMMENT_LINES)
            check(f'{name} can fail and does not have CEDAR_WARN_UNUSED',
                  bool(found['unused']) == (found['result'] in ('cedar_status', 'bool')))
        print(f'{PASSED[0]} passed, {len(FAILED)} failed')
        sys.exit(1 if FAILED else 0)
    elif sys.argv[1:] == []:
        with open(OUTPUT, 'w', encoding='utf-8') as file:
            file.write(written())
    else:
        sys.exit('usage: tools/c_header.py [--check | --names]')


if __name__ == '__main__':
    main()
