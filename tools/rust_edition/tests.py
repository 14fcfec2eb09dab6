"""Writes the tests of the layer over the package: modules of a copy of it, under `cfg(test)`.

The tests expect the results of the layer. So a call of the package that returns a value is wrapped in `Ok`, and the
code that checks the result does not change. Functions that a test defines itself keep their allocators.
"""
import os
import re

from . import exceptions, replacements, texts
from .bodies import ALLOCATOR, STD_METHODS
from .functions import Function, called, functions, header, imports_of, is_function, kind_of, starts_item
from .ghosts import without_ghosts
from .items import first_argument
from .statements import arms, from_arms
from .trees import Group, after, angle_start, before, is_code, is_group, is_id, is_p, parse, plain, text, trim

HERE = os.path.dirname(os.path.abspath(__file__))
OK = 'Ok::<_, AllocError>'
STD_TYPES = set('Rc RcStr Vec String Box IndexSet IndexMap LinkedMap LinkedSet HashMap HashSet BTreeMap BTreeSet VecDeque'.split())
STD_MEMORY = re.compile(r'(Rc|Box)::new|Rc::(make_mut|unwrap_or_clone)|\w+::(with_capacity|with_capacity_and_hasher)'
                        r'|Vec::from_slice|(String|RcStr)::from_str')
NODE = set('''get_key add_edge_to out_edges has_edge_to may_have_edges reset_edges direct_edges list_edges
order add_edges_to add_new_edges_to'''.split())
ERRORS = (r'\b(ParseErrors|ExprValidationError|TcError|EntitiesError|ActionTypesError|TemplateValidationError'
          r'|UnexpectedSlotError|LinkingError|PolicySet\w*Error|RunError|TalkError)(::<\w+>)?::Memory')
WORDS = {'if', 'match', 'while', 'return', 'in', 'fn', 'let', 'mut', 'for', 'Some', 'Ok', 'Err', 'move', 'else'}


def sources(top):
    """Iterates over the crate, the file and the tree of each source of tests."""
    for crate in exceptions.TESTS:
        folder = os.path.join(top, 'crates', crate, 'src')
        for base, _, names in sorted(os.walk(folder)):
            for name in sorted(n for n in names if n.endswith('.rt')):
                path = os.path.join(base, name)
                with open(path, encoding='utf-8') as f:
                    yield crate, os.path.relpath(path, folder)[:-3], without_ghosts(f.read())


class Library:
    """The results of the package, and the own types and methods of each crate of tests."""

    def __init__(self, table, files, tests):
        self.table, self.methods, self.own_types, self.own_methods = table, {}, {}, {}
        for file in files:
            for f, owner, trait in functions(file.nodes):
                if f.is_method() and (trait is not None or is_public(f)):
                    kind = kind_of(f.answer)
                    kind = 'memory' if table.owned.get((owner, f.name)) == {'memory'} else kind
                    self.methods.setdefault(f.name, set()).add((kind, f.takes_memory()))
        for name in ('out_edges', 'direct_edges'):
            self.methods[name] = {('memory', True)}
        for crate, _, nodes in tests:
            for f, owner, _ in functions(nodes):
                if owner is not None:
                    self.own_types.setdefault(crate, set()).add(owner)
                    if f.is_method():
                        self.own_methods.setdefault(crate, set()).add(f.name)

    def free(self, crate, name):
        """Returns the kinds of a free function of a crate, or of any crate if this one re-exports it."""
        kinds = set(self.table.free.get((crate, name), {}).values())
        if not kinds:
            for (_, other), by_file in self.table.free.items():
                kinds |= set(by_file.values()) if other == name else set()
        return kinds


def is_public(f):
    """Returns whether a function is public."""
    j = before(f.nodes, f.at - 1)
    while j >= 0 and is_id(f.nodes[j]) and f.nodes[j][1] in ('const', 'final'):
        j = before(f.nodes, j - 1)
    return j >= 0 and is_id(f.nodes[j], 'pub')


class Test:
    """A source of tests, whose calls are changed to calls of the package."""

    def __init__(self, crate, imports, library):
        self.crate, self.imports, self.library = crate, imports, library

    def wrapper_of_call(self, out):
        """Returns whether the last call is of the package or of std, and the wrapper for its result."""
        how, name, on, _ = called(out, len(out))
        if how == 'path':
            return self.of_path(name, on)
        if how == 'free':
            at = self.imports.get(name, ('', ''))[0]
            if at not in exceptions.CRATES:
                return False, None
            return True, self.wrapper(self.library.free(at, name), name)
        if how == 'method':
            return self.of_method(name, is_first_allocator(out[-1].items))
        return False, None

    def wrapper(self, kinds, name):
        """Returns the wrapper for a result of these kinds, or `None`."""
        if name == 'slice':  # can fail only by an allocation, with an error that tests name
            return 'Ok::<_, crate::entities::EntitiesError>'
        return OK if 'memory' in kinds else None

    def of_path(self, name, on):
        """Does the same as `judge` for a call `on::name(..)`."""
        if on in STD_TYPES:
            return True, OK if STD_MEMORY.fullmatch(f'{on}::{name}') else None
        if on == 'Self' or on in self.library.own_types.get(self.crate, ()):
            return False, None
        if (on, name) in self.library.table.owned:
            return True, self.wrapper(self.library.table.owned[on, name], name)
        at = on if on in exceptions.CRATES else self.imports.get(on, ('', ''))[0]
        if at in exceptions.CRATES:
            return True, self.wrapper(self.library.free(at, name), name)
        return False, None

    def of_method(self, name, has):
        """Does the same as `judge` for a method, by its name and whether it has an allocator argument."""
        kinds = {kind for kind, takes in self.library.methods.get(name, ()) if takes == has}
        if name in STD_METHODS:
            kinds = {'memory'} if not has and name != 'insert' else kinds | {'memory'}
        elif name in self.library.own_methods.get(self.crate, ()) and name not in NODE:
            return False, None
        if not kinds and not has:
            return False, None
        return True, OK if 'memory' in kinds else None

    def calls(self, nodes):
        """Rewrites the calls of a body."""
        out = []
        for n in nodes:
            if not isinstance(n, Group):
                out.append(n)
                continue
            j = before(out, len(out) - 1)
            if j >= 0 and is_p(out[j], '!') and is_id_at(n.items, 'in'):
                self.macro(out, before(out, j - 1), n)
                continue
            out.append(Group(n.open, self.calls(n.items)))
            if n.open == '(' and j >= 0 and is_call(out, j):
                self.call(out)
        return out

    def macro(self, out, start, n):
        """Rewrites `format!(in alloc; ..)` and `vec![in alloc; ..]`."""
        k = next(k for k, x in enumerate(n.items) if is_p(x, ';'))
        body = out[start:] + [Group(n.open, self.calls(trim(n.items[k + 1:])))]
        out[start:] = parse(OK) + [Group('(', body)]

    def call(self, out):
        """Rewrites the last call: removes the allocator, and wraps the result."""
        is_library, result_wrapper = self.wrapper_of_call(out)
        if not is_library:
            return
        if is_first_allocator(out[-1].items):
            k = next((k for k, x in enumerate(out[-1].items) if is_p(x, ',')), len(out[-1].items))
            out[-1].items[:] = trim(out[-1].items[k + 1:])
        if result_wrapper:
            how, name, _, k = called(out, len(out))
            start = receiver(out, k) if how == 'method' else path_start(out, k)
            listed = parse('.collect::<Vec<_>>()') if name in ('out_edges', 'direct_edges') else []
            out[start:] = parse(result_wrapper) + [Group('(', trim(out[start:]) + listed)]

    def functions(self, nodes):
        """Rewrites the bodies of the functions of a tree."""
        out, i = [], 0
        while i < len(nodes):
            if is_id(nodes[i]) and nodes[i][1] in ('impl', 'trait') and starts_item(nodes, i):
                j, _ = header(nodes, i)
                out += nodes[i:j] + [Group('{', self.functions(nodes[j].items))]
                i = j + 1
            elif is_function(nodes, i):
                f = Function(nodes, i)
                out += self.function(f)
                i = f.end + 1
            else:
                out.append(nodes[i])
                i += 1
        return out

    def function(self, f):
        """Rewrites a function."""
        if f.body is None:
            return f.nodes[f.at:f.end + 1]
        body = self.calls(without_library_memory(f.body))
        if f.name == 'clone' and 'AllocError' in f.answer:
            clone_text = f'fn clone(&self) -> {first_argument(f.answer)} {{ (|| -> {f.answer} {{ {text(body)} }})().unwrap() }}'
            return parse(clone_text)
        signature = [n for n in f.nodes[f.at:f.end] if isinstance(n, Group) or n[0] != 'com']
        return signature + [Group('{', body)]


def is_id_at(items, name):
    """Returns whether the first node of code is this identifier."""
    k = after(items, 0)
    return k < len(items) and is_id(items[k], name)


def is_call(out, j):
    """Returns whether the parentheses after `out[j]` are the arguments of a call."""
    if is_id(out[j]):
        p = before(out, j - 1)
        return out[j][1] not in WORDS and not (p >= 0 and is_id(out[p], 'fn'))
    return is_p(out[j], '>')


def is_first_allocator(items):
    """Returns whether the first argument is an allocator."""
    first = []
    for n in items:
        if is_p(n, ','):
            break
        first.append(n)
    return ALLOCATOR.fullmatch(plain(first)) is not None


def path_start(out, k):
    """Returns the index at which the path begins that ends with `out[k]`."""
    while True:
        q = before(out, k - 1)
        if q < 0 or not is_p(out[q], '::'):
            return k
        k = before(out, q - 1)
        if is_p(out[k], '>'):
            k = before(out, angle_start(out, k) - 1)
            k = before(out, k - 1) if is_p(out[k], '::') else k


def receiver(out, k):
    """Returns the index at which the receiver of a method begins; `out[k]` is the name of the method."""
    j = before(out, before(out, k - 1) - 1)
    while True:
        while is_p(out[j], '?'):
            j = before(out, j - 1)
        if isinstance(out[j], Group):
            j = callee(out, j)
        j = path_start(out, j)
        p = before(out, j - 1)
        if p < 0 or not is_p(out[p], '.'):
            return j
        j = before(out, p - 1)


def callee(out, j):
    """Returns the index of the name before the arguments at `j`, or `j` if these are not arguments."""
    p = before(out, j - 1)
    if p < 0 or is_group(out[j], '{'):
        return j
    if is_p(out[p], '!'):
        return before(out, p - 1)
    if is_p(out[p], '>'):
        p = before(out, before(out, angle_start(out, p) - 1) - 1)
    return p if is_id(out[p]) and out[p][1] not in WORDS else j


def without_library_memory(nodes):
    """Removes match arms for the variant `Memory` of errors of the package."""
    out = []
    for n in nodes:
        if isinstance(n, Group):
            n = Group(n.open, without_library_memory(n.items))
            if n.open == '{' and any(is_p(x, '=>') for x in n.items):
                all_ = arms(n.items)
                remaining = [a for a in all_ if not re.search(ERRORS, plain(a.pattern))]
                n = Group('{', from_arms(remaining)) if len(remaining) < len(all_) else n
        out.append(n)
    return out


def without_memory(source):
    """Changes arms that create an allocation error to return its text, and removes assertions of one."""
    out = []
    for line in source.split('\n'):
        arm = re.match(r'^(\s*.*?) => .*,$', line)
        if re.search(ERRORS, line) and arm:
            line = f'{arm.group(1)} => return Ok(String::from("out of memory")),'
        elif re.search(ERRORS, line) and line.strip().startswith('assert!'):
            continue
        out.append(line)
    return '\n'.join(out)


NAMES = [
    (r'(#\[test\]\s*(?:(?:#\[[^\]]*\]|//[^\n]*)\s*)*fn \w+)\(\s*rt: HostRuntime,?\s*\)([^{]*)\{',
     r'\1()\2{ let rt = HostRuntime;'),
    (r'\b((?:debug_)?assert(?:_eq|_ne)?|panic)!\(\s*&?rt\s*;', r'\1!('),
    (r'impl(.*?) TCNode<', r'impl\1 TestNode<'), (r'\bTestNode\b', 'crate::tests_std::TestNode'),
    (r'(?<=[:+] )Hash\b(?=\s*[,>+{=])', 'Hash + Eq'),
    (r'OrderedMap<PolicyID, PolicyID, S>', 'crate::Renaming<S>'), (r'\.src\.as_str\(\)', '.src.as_ref()'),
    (r'\bstd::(alloc|test|process::Abort)\b', r'crate::tests_std::\1'), (r'\bstd::rc\b', 'std::sync'),
    (r'use std::sync::\{Arc, Arc<str>\};', 'use std::sync::Arc;'), (r'use std::sync::Arc<str>;', 'use std::sync::Arc;'),
    (r'use (?:thiserror::Error|std::marker::Model);\n', ''), (r'\{([^{}]*)\bFoldHasher\b,?([^{}]*)\};', r'{\1\2};'),
    (r'\buse indexmap::', 'use crate::ordered_map::'),
]


def test_text(crate, name, nodes, library):
    """Returns the text of a source of tests."""
    everything = exceptions.CRATES + exceptions.TESTS
    test = Test(crate, imports_of(nodes, crate, everything), library)
    source = texts.renamed(text(test.functions(nodes)))
    source = re.sub(r'#\[derive\(([^)]*)\)\]', lambda m: derived(m.group(1)), source)
    for old, new in NAMES:
        source = re.sub(old, new, source)
    source = texts.on_code(source, lambda s: paths(s, crate, everything))
    lines = without_memory(source).split('\n')
    k = next(k for k, line in enumerate(lines) if line.strip() and not line.startswith(('//!', '#!')))
    return '\n'.join(lines[:k] + ['use crate::tests_std::prelude::*;'] + lines[k:])


def derived(listed):
    """Returns a `derive` with only the traits of std."""
    names = [n.strip() for n in listed.split(',') if n.strip() not in ('Drop', 'Error')]
    return f'#[derive({", ".join(names)})]' if names else ''


def paths(s, crate, everything):
    """Replaces paths of crates by paths of modules."""
    s = re.sub(r'\bpub\(crate\)', 'pub(CRATE)', s)
    s = re.sub(r'\bcrate::(?!tests_std|Renaming|ordered_map|entities::EntitiesError)', f'crate::{crate}::', s)
    named = '|'.join(sorted(everything, key=len, reverse=True))
    s = re.sub(rf'(?<![:\w])({named})::', r'crate::\1::', s)
    return s.replace('crate::crate::', 'crate::').replace('pub(CRATE)', 'pub(crate)')


def modules(top, table, files):
    """Returns the text of each source of tests, by its path below `src`."""
    tests = list(sources(top))
    library = Library(table, files, tests)
    _, after_ = replacements.entries(os.path.join(HERE, 'test_replacements.txt'))
    out = {}
    for crate, name, nodes in tests:
        source = test_text(crate, name, nodes, library)
        source = replacements.apply(source, after_.get((crate, name), []), f'{crate}/{name}')
        out[os.path.join(crate, 'mod.rs' if name == 'lib' else name + '.rs')] = source
    return out


def imported_names(top):
    """Returns the names that tests import from the heads of crates."""
    return {(path[0], path[1].split(' as ')[0]) for _, _, nodes in sources(top) for path in texts.uses_in(nodes)
            if path[0] in exceptions.CRATES and len(path) > 1}
