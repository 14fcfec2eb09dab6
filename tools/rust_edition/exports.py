"""Writes the functions of the C library over the package: one for each function that `cedar_c` exports.

A slice is passed as a pointer and a length, and a reference as a pointer. The hand-written `c_references.rs` converts them to
references. Each signature is compared with the declaration in the headers of `callers/c`.
"""
import os
import re

from .functions import functions, is_allocator
from .trees import before, is_id, plain

# `PLAIN` has the types that are passed by value, with their types in C. `POINTED_TO` has the types behind pointers. `REFERENCES` has a line for
# each kind of reference: its pattern, the function of `c_references.rs` that creates it, the pointer type, and whether it is a slice.
PLAIN = {'bool': 'bool', 'u32': 'uint32_t', 'u64': 'uint64_t', 'usize': 'size_t'}
POINTED_TO = {'u8': 'uint8_t', 'Span': 'cedar_span', 'Edge': 'cedar_edge', 'Term': 'cedar_term', 'Node': 'cedar_node',
        'Body': 'cedar_body', 'AnnotationAt': 'cedar_annotation', 'Store': 'cedar_store', 'Policies': 'cedar_policies'}
REFERENCES = [(r'&\[(\w+)\]', 'all', '*const', True), (r'&mut \[(\w+)\]', 'all_mut', '*mut', True),
        (r'&mut (\w+)', 'one', '*mut', False), (r'&(\w+)', 'read', '*const', False)]
HEAD = '''//! The functions of `cedar.h`. Each calls the function of the layer with the same name.
#![allow(unsafe_code)]

use super::c_references;
use super::policies::Policies;
use super::store::Store;
use crate::cedar_c_bodies::{AnnotationAt, Body};
use crate::cedar_c_lists::{Edge, Span};
use crate::cedar_c_stores::Term;
use crate::cedar_c_trees::Node;
'''


class Export:
    """A function for C: its name, its file, its parameters, the arguments of the inner call, and its result."""

    def __init__(self, module, f):
        self.module, self.name, self.answer, self.unknown = module, f.name, f.answer, []
        self.parameters, self.arguments, self.c_types = [], [], []
        for p in f.params:
            if not is_allocator(p):
                name, kind = [x.strip() for x in plain(p).split(':', 1)]
                self.add_parameter(name, kind)
        if self.answer and self.answer not in PLAIN:
            self.unknown.append(f'rust_edition: there is no rule for the result type `{self.answer}` of {self.name}')

    def add_parameter(self, name, kind):
        """Adds a parameter."""
        if kind in PLAIN:
            self.parameters.append(f'{name}: {kind}')
            self.c_types.append(PLAIN[kind])
            self.arguments.append(name)
            return
        for pattern, converter, pointer, is_many in REFERENCES:
            m = re.fullmatch(pattern, kind)
            if m and m.group(1) in PLAIN | POINTED_TO:
                self.parameters.append(f'{name}: {pointer} {m.group(1)}')
                self.c_types.append('const ' * (pointer == '*const') + (PLAIN | POINTED_TO)[m.group(1)] + ' *')
                self.arguments.append(f'c_references::{converter}({name}, {name}_len)' if is_many else f'c_references::{converter}({name})')
                if is_many:
                    self.parameters.append(f'{name}_len: usize')
                    self.c_types.append('size_t')
                return
        self.unknown.append(f'rust_edition: there is no rule for the parameter `{name}: {kind}` of {self.name}')

    def declared(self):
        """Returns the types that the header must declare, the type of the result first."""
        return [PLAIN.get(self.answer, 'void') if self.answer else 'void', *self.c_types]

    def function_text(self):
        """Returns the text of the function."""
        tail = f' -> {self.answer}' if self.answer else ''
        call = f'super::{self.module}::{self.name}({", ".join(self.arguments)})'
        if any('*' in t for t in self.parameters):
            call = f'// SAFETY: the caller follows the rules at the top of `cedar.h`.\n    unsafe {{ {call} }}'
        return (f'\n#[unsafe(no_mangle)]\npub unsafe extern "C" fn {self.name}({", ".join(self.parameters)}){tail} {{\n'
                f'    {call}\n}}\n')


def exports(files):
    """Returns the exports of `cedar_c`."""
    out = []
    for file in files:
        if file.crate == 'cedar_c':
            out += [Export(file.module, f) for f, _, _ in functions(file.nodes) if is_exported(f)]
    return out


def is_exported(f):
    """Returns whether a function has `extern "C"`."""
    j = before(f.nodes, f.at - 1)
    return j > 0 and f.nodes[j] == ('str', '"C"') and is_id(f.nodes[before(f.nodes, j - 1)], 'extern')


def exported(sources, found):
    """Returns the files with the exports in a file of their own. The exported functions become plain functions."""
    out = dict(sources)
    for name in sources:
        if os.path.dirname(name) == 'cedar_c':
            plain_ones = re.sub(r'#\[unsafe\(no_mangle\)\]\s*', '', sources[name])
            out[name] = re.sub(r'\bextern "C" (?=fn )', '', plain_ones)
    out[os.path.join('cedar_c', 'mod.rs')] += 'mod exports;\nmod c_references;\n'
    out[os.path.join('cedar_c', 'exports.rs')] = HEAD + ''.join(e.function_text() for e in found)
    with open(os.path.join(os.path.dirname(os.path.abspath(__file__)), 'c_references.rs'), encoding='utf-8') as f:
        out[os.path.join('cedar_c', 'c_references.rs')] = f.read()
    return out


def declarations(headers):
    """Returns the types of each function that the headers declare, the type of the result first."""
    code = re.sub(r'/\*.*?\*/', '', headers, flags=re.S)
    # An enum has the size of a number of the library.
    for name in re.findall(r'^typedef enum (\w+)', code, re.M):
        code = re.sub(rf'\b{name}\b', 'uint32_t', code)
    out = {}
    for answer, name, params in re.findall(r'^(?:CEDAR_WARN_UNUSED )?(\w+) (cedar_\w+)\(([^)]*)\);', code, re.M):
        types = [] if params.strip() == 'void' else [type_of(p) for p in params.split(',')]
        out[name] = [answer, *types]
    return out


def type_of(param):
    """Returns the type of a parameter in C, without its name."""
    found = re.fullmatch(r'((?:const )?\w+)\s*(\*?)\s*\w+', ' '.join(param.split()))
    return f'{found.group(1)} *' if found.group(2) else found.group(1)


def faults(found, top):
    """Returns the differences between the exports and the headers."""
    headers = ''
    for name in ('status.h', 'values.h', 'store.h', 'policies.h'):
        with open(os.path.join(top, 'callers', 'c', 'cedar', name), encoding='utf-8') as f:
            headers += f.read()
    declared = declarations(headers)
    exported_types = {e.name: e.declared() for e in found}
    out = [u for e in found for u in e.unknown]
    out += [f'rust_edition: cedar.h does not declare {name}, which cedar_c exports' for name in sorted(exported_types.keys() - declared.keys())]
    out += [f'rust_edition: cedar.h declares {name}, which cedar_c does not export' for name in sorted(declared.keys() - exported_types.keys())]
    out += [f'rust_edition: {name} has the types {exported_types[name]}, but cedar.h declares {declared[name]}'
            for name in sorted(exported_types.keys() & declared.keys()) if exported_types[name] != declared[name]]
    return out
