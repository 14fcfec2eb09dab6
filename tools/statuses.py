#!/usr/bin/env python3
"""Writes the copies of the table of statuses, callers/statuses.txt. Run it at the top of the repository.

    tools/statuses.py            writes the copies
    tools/statuses.py --check    checks that they are current, and that the table agrees with the proved crates

The copies are callers/c/cedar/status.h, callers/rust/src/reason.rs and callers/python/cedar_store/_statuses.py. The last
line of a check is `N passed, M failed`.
"""
import re
import sys
from typing import NamedTuple

TABLE = 'callers/statuses.txt'
UIDS = {'uid', 'ancestor', 'missing', 'parent'}
DOCUMENTED = {'object': 'what was closed: `a store` or `a policy set`', 'argument': 'what was wrong', 'text': 'the text',
              'uid': 'the uid', 'ancestor': 'the ancestor', 'missing': 'the missing ancestor', 'parent': 'the ancestor',
              'key': 'the key', 'id': 'the id', 'slots': 'the unbound slots, then the bound slots that do not exist'}
PASSED, FAILED = [0], []


class Status(NamedTuple):
    """A line of the table."""
    number: int
    c_name: str
    crate: str
    rust: str
    python: str
    names: tuple
    has_text: bool
    text: str
    comment: str

    @property
    def reason(self):
        """The words for the status in Python."""
        return self.c_name.lower().replace('_', ' ').replace('utf8', 'UTF-8')


def read(path):
    with open(path, encoding='utf-8') as file:
        return file.read()


def table():
    """Returns the statuses of the table, in the order of their numbers."""
    found = []
    for line in read(TABLE).splitlines():
        if line and not line.startswith('#'):
            number, c_name, crate, rust, python, names, text, comment = [cell.strip() for cell in line.split(' | ')]
            named = tuple(re.findall(r'\w+', names.replace('-', '')))
            found.append(Status(int(number), c_name, crate, rust, python, named, bool(named) and '[' not in names, text, comment))
    return found


def lowered(comment):
    """Returns a sentence as the rest of a line: without its full stop, and with a small first letter."""
    return comment[0].lower() + comment[1:].rstrip('.')


def c_header(statuses):
    """Returns the header with the enum of C, and the names and the texts of its values."""
    enum = ''.join(f'    /* {one.comment}{" Its text names: " + ", ".join(one.names) + "." if one.has_text else ""} */\n'
                   f'    CEDAR_{one.c_name} = {one.number},\n' for one in statuses)
    enum = re.sub(r',\n$', '\n', enum)
    names = ''.join(f'    case CEDAR_{one.c_name}: return "CEDAR_{one.c_name}";\n' for one in statuses)
    texts = ''.join(f'    case CEDAR_{one.c_name}: return "{one.text}";\n' for one in statuses)
    return f'''/* The statuses of calls. Written by tools/statuses.py from callers/statuses.txt: do not edit. */
#ifndef CEDAR_STATUS_H
#define CEDAR_STATUS_H

/* The status that a call returns. An error whose comment says what its text names has a text. A handle stores the text
 * until its next error that has one. No other status changes the stored text, not even CEDAR_NO_MEMORY.
 * `cedar_store_error_text` and `cedar_policies_error_text` copy it, and `cedar_error_part` finds the names in it. */
typedef enum cedar_status {{
{enum}}} cedar_status;

/* The number of statuses. They are the numbers below it. */
#define CEDAR_STATUSES {len(statuses)}

/* Returns the name of a status, for example `CEDAR_CYCLE`, or an empty text for a number that is not a status. Not
 * proved, but tested. */
static inline const char *cedar_status_name(cedar_status status) {{
    switch (status) {{
{names}    }}
    return "";
}}

/* Returns the text of a status, for example `cycle at`, or an empty text for a number that is not a status. The text of
 * an error begins with it. Not proved: a test compares it with `cedar_status_text`. */
static inline const char *cedar_status_words(cedar_status status) {{
    switch (status) {{
{texts}    }}
    return "";
}}

#endif
'''


def rust_reasons(statuses):
    """Returns the enum of reasons of the Rust crate, with their statuses."""
    known = [one for one in statuses if one.rust != '-']
    variants = ''.join(f'    /// {one.comment}\n    {one.rust},\n' for one in known)
    pairs = ''.join(f'    ({one.number}, Reason::{one.rust}),\n' for one in known)
    with_uids = '\n            | '.join(f'Reason::{one.rust}' for one in known if one.has_text and set(one.names) <= UIDS)
    without_text = ''.join(f'        Reason::{one.rust} => Some("{one.text}"),\n' for one in known if not one.has_text)
    return f'''//! The reasons of errors. Written by tools/statuses.py from callers/statuses.txt: do not edit.

/// The reason of an error. Each corresponds to a status of `cedar.h`.
#[derive(Clone, Copy, Debug, PartialEq, Eq, Hash)]
#[non_exhaustive]
pub enum Reason {{
{variants}}}

// The reasons with their statuses.
pub(crate) const STATUSES: [(u32, Reason); {len(known)}] = [
{pairs}];

// Returns whether the text of an error with this reason names uids.
pub(crate) fn names_uids(reason: Reason) -> bool {{
    matches!(
        reason,
        {with_uids}
    )
}}

// Returns the message of an error for which the library has no text.
pub(crate) fn message(reason: Reason) -> Option<&'static str> {{
    match reason {{
{without_text}        _ => None,
    }}
}}
'''


def python_property(name, index):
    """Returns the attribute of an exception for the name at an index."""
    if name == 'slots':
        result, value = 'Tuple[str, ...]', 'self.names'
    elif name in UIDS:
        result, value = 'EntityUid', f'self._uid({index})'
    else:
        result, value = 'str', f'self._name({index})'
    return f'''
    @property
    def {name}(self) -> {result}:
        """Returns {DOCUMENTED[name]}."""
        return {value}
'''


def python_exceptions(statuses):
    """Returns the module of the exceptions, with a table of the statuses."""
    classes = {}
    for one in statuses[1:]:
        name, _, base = one.python.partition(': ')
        classes.setdefault(name, (base, one.names, []))[2].append(one)
    text = ''
    for name, (base, names, group) in classes.items():
        comment = ' '.join(dict.fromkeys(one.comment for one in group))
        lines = []
        for word in comment.split():
            if lines and len(lines[-1]) + len(word) < 108:
                lines[-1] += ' ' + word
            else:
                lines.append(word)
        doc = lines[0] + '"""' if len(lines) == 1 else '\n    '.join(lines) + '\n    """'
        properties = ''.join(python_property(one, index) for index, one in enumerate(names))
        text += f'\n\nclass {name}({", ".join(filter(None, ["CedarError", base]))}):\n    """{doc}\n{properties}'
    rows = ''.join(f'    {one.number}: Status("{one.reason}", {one.python.partition(":")[0]}, "{one.text}", {one.has_text}, '
                   f'{bool(one.names) and set(one.names) <= UIDS}),\n' for one in statuses[1:])
    exported = ''.join(f'    "{name}",\n' for name in sorted(classes))
    return f'''"""The exceptions by meaning. Written by tools/statuses.py from callers/statuses.txt: do not edit."""
from __future__ import annotations

from typing import Dict, NamedTuple, Tuple, Type

from ._errors import CedarError
from ._uids import EntityUid

__all__ = [
{exported}]
{text}

class Status(NamedTuple):
    """A status of the library: its reason, its exception, the text of the status, and what its error text names."""

    reason: str
    exception: Type[CedarError]
    text: str
    has_text: bool
    names_uids: bool


STATUSES: Dict[int, Status] = {{
{rows}}}

# The public name of each exception, for example in a traceback.
for _status in STATUSES.values():
    _status.exception.__module__ = "cedar_store"
'''


def copies(statuses):
    """Returns the copies by their paths."""
    return {'callers/c/cedar/status.h': c_header(statuses), 'callers/rust/src/reason.rs': rust_reasons(statuses),
            'callers/python/cedar_store/_statuses.py': python_exceptions(statuses)}


def check(fault, is_valid):
    if is_valid:
        PASSED[0] += 1
    else:
        FAILED.append(fault)
        print(f'statuses: FAILED: {fault}')


def check_crates(statuses):
    """Checks that the table agrees with the proved crates: numbers, texts, and which errors name what."""
    crate = 'crates/cedar_c_lists/src/reason.rt'
    reasons, naming = read(crate), read('crates/cedar_c_errors/src/naming.rt')
    numbers = [(name, int(number)) for name, number in re.findall(r'Reason::(\w+) => (\d+)', reasons)]
    words = re.findall(r'Reason::(\w+) => "(.*)"', reasons)
    back = [(name, int(number)) for number, name in re.findall(r'(\d+) => Some\(Reason::(\w+)\)', read('crates/cedar_c_lists/src/status.rt'))]
    check(f'the numbers differ from {crate}', numbers == [(one.crate, one.number) for one in statuses[1:]])
    check('the numbers differ from crates/cedar_c_lists/src/status.rt', back == numbers)
    check(f'the texts differ from {crate}', words == [(one.crate, one.text) for one in statuses[1:]])
    for function, is_named in (('names_uids', lambda one: set(one.names) <= UIDS),
                               ('names_one', lambda one: one.names in (('id',), ('key',)))):
        body = naming[naming.index(f'fn {function}'):]
        named = re.findall(r'Reason::(\w+)', body[:body.index('\n}')])
        check(f'the table and `{function}` differ in what an error names',
              sorted(named) == sorted(one.crate for one in statuses if one.has_text and is_named(one)))


def main():
    statuses = table()
    if sys.argv[1:] not in ([], ['--check']):
        sys.exit('usage: tools/statuses.py [--check]')
    if sys.argv[1:] == []:
        for path, text in copies(statuses).items():
            with open(path, 'w', encoding='utf-8') as file:
                file.write(text)
        return
    check('the numbers of the table are not consecutive', [one.number for one in statuses] == list(range(len(statuses))))
    for path, text in copies(statuses).items():
        check(f'{path} is not the copy of {TABLE}: run python3 tools/statuses.py', read(path) == text)
    check_crates(statuses)
    print(f'{PASSED[0]} passed, {len(FAILED)} failed')
    sys.exit(1 if FAILED else 0)


if __name__ == '__main__':
    main()
