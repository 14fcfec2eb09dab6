#!/usr/bin/env python3
"""Lists the public calls that allocate, and checks that each has a test case in which its allocations fail.

Without an argument, it prints the calls found in the sources: each crate, and below it its calls. The output has to
equal tools/allocating-calls.txt, except for the mark `- `. The mark precedes a call whose test cases do not
allocate, so that no allocation can fail.

With `--cases FILE`, it compares the list with the sources and with the test cases that the tests reported in FILE.

A public call allocates if it returns a `Result` and has a parameter `alloc: Global`, or if it can return an
`AllocError` or an error with a variant `Memory`. Clones count too, for every public type that is not `Copy`. Run it at
the top of the repository.
"""
import glob
import os
import re
import sys

LIST = 'tools/allocating-calls.txt'


def crates():
    for line in open('crates.txt', encoding='utf-8'):
        name = line.split('#')[0].split(':')[0].strip()
        # callers/run tests the allocation failures of the library for C and of its deep copies, from C
        if name and not name.endswith('_tests') and name not in ('cedar_examples', 'cedar_test_helpers', 'cedar_alloc_failures'):
            if not re.match(r'cedar_c(_|\b)|cedar_deep_copy(_|\b)', name):
                yield name.split()[0]


def plain(name):
    """Returns the name of a type without its parameters."""
    return re.sub(r'<.*', '', name).strip()


def public_items(crate, texts):
    """Returns a function that checks whether an item of a file is public."""
    root = texts.get('lib.rt', '') + texts.get('main.rt', '')
    modules = set(re.findall(r'^pub mod (\w+);', root, re.M))
    names = set()
    for module, listed in re.findall(r'^pub use (\w+)::(?:\{([^}]*)\}|(?=\w))', root, re.M):
        names |= {(module, name.strip()) for name in listed.split(',') if name.strip()}
    names |= set(re.findall(r'^pub use (\w+)::(\w+);', root, re.M))

    def is_public(file, name):
        module = os.path.basename(file)[:-3]
        return module in ('lib', 'main') or module in modules or (module, name) in names
    return is_public


def functions(text):
    """Yields each function: its block, whether it is public, its name, its signature, and whether it has a body."""
    block = ''
    lines = text.split('\n')
    for at, line in enumerate(lines):
        if re.match(r'(pub )?(impl|trait)\b', line):
            block = line.rstrip('{ ')
        if line.startswith('}'):
            block = ''
        found = re.match(r'\s*(pub )?fn (\w+)', line)
        if not found:
            continue
        signature, last = line, at
        while '(' not in signature or signature.count('(') != signature.count(')'):
            last += 1
            signature += ' ' + lines[last].strip()
        if '->' not in signature and lines[last + 1].strip().startswith('->'):
            signature += ' ' + lines[last + 1].strip()
        indent = re.match(r' *', line).group()
        body = line.endswith('{')
        for further in lines[at + 1:]:
            if body or further.rstrip().endswith(';') and not further.startswith(indent + '     '):
                break
            body = further in (indent + '{', indent + '{}') or further.startswith(indent + ')') and further.endswith('{')
        yield block, bool(found.group(1)), found.group(2), re.sub(r'\s+', ' ', signature), body


def memory_errors(texts):
    """Yields the errors that have a variant `Memory`."""
    for text in texts.values():
        for name, body in re.findall(r'^pub enum (\w+)[^{]*\{(.*?)^\}', text, re.M | re.S):
            if re.search(r'^    Memory,', body, re.M):
                yield name


def can_fail_to_allocate(signature, errors):
    """Returns whether a function can return an allocation failure."""
    returned = signature.partition('->')[2]
    if 'Result<' not in returned:
        return False
    if 'AllocError' in returned or re.search(r'\balloc: Global', signature):
        return True
    return any(re.search(rf'\b{error}\b', returned) for error in errors)


def call_name(block, public, name, signature, body, errors, is_type):
    """Returns the name of the function in test cases, or None if it does not allocate or is not public."""
    trait_impl = re.match(r'impl(?:<[^>]*>)? (.+?) for (.+?)(?: where.*)?$', block)
    if trait_impl:
        trait, of = trait_impl.group(1), plain(trait_impl.group(2))
        if not is_type(of):
            return None
        if trait == 'Clone':
            return f'{of}::clone'
        if trait.startswith('From<'):
            converts = of in errors and not re.match(r'From<Alloc', trait)
            return f'{trait} for {of}::{name}' if converts else None
        if not can_fail_to_allocate(signature, errors):
            return None
        return f'{trait} for {of}::{name}' if trait.startswith('TCNode') else f'{of}::{name}'
    if block.startswith('pub trait'):
        trait = plain(re.match(r'pub trait (\w+)', block).group(1))
        return f'{trait}::{name}' if body and can_fail_to_allocate(signature, errors) else None
    if not public or not can_fail_to_allocate(signature, errors):
        return None
    if block:
        of = plain(re.match(r'impl(?:<[^>]*>)? (.+)', block).group(1))
        return f'{of}::{name}' if is_type(of) else None
    return name if is_type(name) else None


def aliases(files):
    """Returns the type aliases that a crate defines for instances of its generic types."""
    alias_names = {}
    for text in files.values():
        for name, of in re.findall(r'^pub type (\w+) = (\w+)<', text, re.M):
            alias_names.setdefault(of, []).append(name)
    return alias_names


def names_of_call(call, alias_names):
    """Returns the names of a call, with the aliases of its type if it has some."""
    of, colons, name = call.partition('::')
    return [f'{alias}::{name}' for alias in alias_names[of]] if colons and of in alias_names else [call]


def calls():
    texts = {crate: {os.path.basename(file): open(file, encoding='utf-8').read()
                     for file in sorted(glob.glob(f'crates/{crate}/src/*.rt'))} for crate in crates()}
    errors = {error for files in texts.values() for error in memory_errors(files)}
    seen = set()
    for crate, files in texts.items():
        is_public = public_items(crate, files)
        for file, text in files.items():
            for name in re.findall(r'^pub (?:struct|enum|trait|fn) (\w+)', text, re.M):
                if is_public(file, name):
                    seen.add(name)
    for crate, files in texts.items():
        listed = set()
        for file, text in files.items():
            for derived, name in re.findall(r'^#\[derive\(([^)]*)\)\]\n(?:#.*\n)*pub (?:struct|enum) (\w+)', text, re.M):
                words = derived.replace(' ', '').split(',')
                if 'Clone' in words and 'Copy' not in words and name in seen:
                    listed.add(f'{name}::clone')
            for function in functions(text):
                call = call_name(*function, errors, lambda name: name in seen)
                if call:
                    listed.add(call)
        alias_names = aliases(files)
        for call in sorted({name for call in listed for name in names_of_call(call, alias_names)}):
            yield crate, call


def public_functions():
    """Yields the name of each function that is marked as public, with its type."""
    for crate in crates():
        for file in sorted(glob.glob(f'crates/{crate}/src/*.rt')):
            for block, public, name, _, _ in functions(open(file, encoding='utf-8').read()):
                of = re.match(r'impl(?:<[^>]*>)? (\w+)', block)
                if public:
                    yield f'{of.group(1)}::{name}' if of else name


def listed_calls():
    """Yields the calls of the list, and whether each has the mark of a call that does not allocate in its test cases.
    """
    crate = None
    for line in open(LIST, encoding='utf-8'):
        line = line.rstrip()
        if line and not line.startswith(('#', ' ')):
            crate = line
        elif line.startswith(' '):
            call = line.strip()
            yield (crate, re.sub(r'^- ', '', call)), call.startswith('- ')


def test_cases(file):
    """Returns for each call the number of its test cases and the number of allocations that failed in them."""
    counts = {}
    for line in open(file, encoding='utf-8', errors='replace'):
        found = re.match(r'\s*refused in turn: (.*?) \| .*: Well\((\d+)\)$', line)
        if found:
            number, requests = counts.get(found.group(1), (0, 0))
            counts[found.group(1)] = number + 1, requests + int(found.group(2))
    return counts


def check(file):
    """Prints the faults of the list and of the test cases, and the counts. Returns whether there is no fault."""
    found_calls, marks, counts = set(calls()), dict(listed_calls()), test_cases(file)
    names = {call for _, call in found_calls}
    faults = [f'{LIST} does not list `{call}` of {crate}' for crate, call in sorted(found_calls - set(marks))]
    faults += [f'{LIST} lists `{call}` of {crate}, which is not a public call that allocates' for crate, call in sorted(set(marks) - found_calls)]
    for (crate, call), mark in sorted(marks.items()):
        if call not in counts:
            faults.append(f'`{call}` of {crate} has no test case')
        elif mark == (counts[call][1] > 0):
            faults.append(f'`{call}` of {crate} ' + ('allocates in its test cases, but has the mark `- `' if mark else 'does not allocate in its test cases, but has no mark `- `'))
    # A case may show that a call does not allocate.
    for call in sorted(set(counts) - names):
        if counts[call][1]:
            faults.append(f'test cases name `{call}`, which is not a public call that allocates')
        elif call not in set(public_functions()):
            faults.append(f'test cases name `{call}`, which is not a public call')
    for fault in faults:
        print(f'allocation failures: FAILED: {fault}')
    with_cases = sum(call in counts for _, call in found_calls)
    count = sum(number for number, _ in counts.values())
    requests = sum(number for _, number in counts.values())
    print(f'allocation failures: {with_cases} of {len(found_calls)} public calls that allocate have test cases ({count} test cases, {requests} failed allocations)')
    return not faults


def main():
    if sys.argv[1:2] == ['--cases']:
        sys.exit(0 if check(sys.argv[2]) else 1)
    last = None
    for crate, call in calls():
        if crate != last:
            print(crate)
        last = crate
        print('    ' + call)


if __name__ == '__main__':
    main()
