#!/usr/bin/env python3
"""Checks the `# Errors` sections of comments. Run it at the top of the repository; the last line is `N passed, M failed`.

- The comment of each public function that returns a `Result` has a section `# Errors`. Methods of public traits count too.
- Each variant of each error type is named in at least one such section. An error type is a public enum that derives `thiserror::Error`.

It reads the crates of the layer, without tests, and the Rust code that is written by hand.
"""
import glob
import re
import sys

FUNCTION = re.compile(r'(?m)^(?P<indent> *)(?P<public>pub )?(?:const |unsafe |extern "C" )*fn (?P<name>\w+)')
PASSED, FAILED = [0], []


def check(fault, is_valid):
    """Counts a check, and prints a fault."""
    if is_valid:
        PASSED[0] += 1
    else:
        FAILED.append(fault)
        print(f'error sections: FAILED: {fault}')


def sources():
    """Returns the files whose public functions are checked."""
    found = [path for path in glob.glob('crates/*/src/**/*.rt', recursive=True)
             if not re.search(r'crates/(\w+_tests|cedar_test_helpers|cedar_alloc_failures)/', path)]
    handwritten = glob.glob('rust/src/handwritten/*.rs') + glob.glob('callers/rust/src/**/*.rs', recursive=True)
    return sorted(found + [path for path in handwritten if not path.endswith('_tests.rs')])


def comment_above(lines, at):
    """Returns the documentation comment above a line without its marks. Attributes in between are skipped."""
    found = []
    while at > 0 and re.match(r'^\s*(///|#\[|\)\]|//)', lines[at - 1]):
        at -= 1
        if lines[at].strip().startswith('///'):
            found.append(lines[at].strip()[3:].strip())
    return '\n'.join(reversed(found))


def section(comment):
    """Returns the text of the section `# Errors`, or an empty text."""
    match = re.search(r'(?ms)^# Errors$(.*?)(?=^# |\Z)', comment)
    return match[1] if match else ''


def in_public_trait(lines, at):
    """Returns whether the line belongs to a public trait."""
    while at > 0:
        at -= 1
        if re.match(r'^\S.*\{$', lines[at]) or re.match(r'^(pub )?(trait|impl|struct|enum|mod|fn)\b', lines[at]):
            return bool(re.match(r'^pub trait\b', lines[at]))
    return False


def functions(text):
    """Yields the public functions of a file: name, line, return type and comment."""
    lines = text.split('\n')
    for match in FUNCTION.finditer(text):
        at = text[:match.start()].count('\n')
        if not match['public'] and not (match['indent'] and in_public_trait(lines, at)):
            continue
        head = re.split(r'(?:\n *| )\{\n|;\n|\n *(?:requires|ensures)', text[match.start():], maxsplit=1)[0]
        returned = re.search(r'->\s*(.*)$', head, re.S)
        yield match['name'], at + 1, returned[1] if returned else '', comment_above(lines, at)


def error_types(text):
    """Yields the public enums that derive `thiserror::Error`, with their variants."""
    for match in re.finditer(r'(?ms)^#\[derive\(([^\]]*)\)\]\n(?:#\[[^\n]*\n|///[^\n]*\n)*pub enum (\w+)(?:<[^{]*>)?[^{]*\{\n(.*?)^\}', text):
        if re.search(r'\bError\b', match[1]):
            yield match[2], re.findall(r'(?m)^    ([A-Z]\w*)\b', match[3])


def main():
    named, types = set(), {}
    for path in sources():
        with open(path, encoding='utf-8') as opened:
            text = opened.read()
        for name, line, returned, comment in functions(text):
            errors = section(comment)
            named |= set(re.findall(r'\b(?:\w+::)?([A-Z]\w*)\b', errors))
            if re.match(r'(?:\w+::)*Result\b', returned):
                check(f'{path}:{line}: {name} returns a Result, but its comment has no section `# Errors`', '# Errors' in comment.split('\n'))
        for name, variants in error_types(text):
            types[name] = (path, variants)
    for name, (path, variants) in sorted(types.items()):
        for variant in variants:
            check(f'{path}: no section `# Errors` names the variant {variant} of {name}', variant in named)
    print(f'{PASSED[0]} passed, {len(FAILED)} failed')
    return 1 if FAILED else 0


if __name__ == '__main__':
    sys.exit(main())
