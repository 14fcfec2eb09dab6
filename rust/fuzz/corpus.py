#!/usr/bin/env python3
"""Converts the corpus of the fuzzer between files and the lines of ../tests/corpus.txt.

- `corpus.py inputs FOLDER` writes a file with the input of each line.
- `corpus.py cases FOLDER` replaces the lines by the inputs in a folder, each with the exit status and a checksum of the output of the proved program.
"""
import hashlib
import os
import re
import subprocess
import sys

HERE = os.path.dirname(os.path.abspath(__file__))
CASES = os.path.join(HERE, '../tests/corpus.txt')
PROVED = os.path.join(HERE, '../../crates/cedar_store_cli/out/cedar_store_cli')
SIGNS = {'t': b'\t', 'n': b'\n', '\\': b'\\'}


def lines_of():
    """Returns all lines of the text, including its head."""
    with open(CASES, encoding='utf-8') as text:
        return text.read().split('\n')


def unescaped(text):
    parts = re.findall(r'\\x(..)|\\(.)|([^\\]+)', text)
    return b''.join(bytes([int(two, 16)]) if two else SIGNS[sign] if sign else plain.encode() for two, sign, plain in parts)


def escaped(data):
    names = {9: '\\t', 10: '\\n', 92: '\\\\'}
    return ''.join(names.get(byte) or (chr(byte) if 32 <= byte < 127 else f'\\x{byte:02x}') for byte in data)


def checksum(data):
    result = 0xcbf29ce484222325
    for byte in data:
        result = (result ^ byte) * 0x100000001b3 & (1 << 64) - 1
    return result


def write_inputs(folder):
    for case in lines_of():
        if case and not case.startswith('#'):
            input_bytes = unescaped(case.split(' ', 2)[2])
            with open(os.path.join(folder, hashlib.sha1(input_bytes).hexdigest()), 'wb') as out:
                out.write(input_bytes)


def write_cases(folder):
    cases = []
    for name in os.listdir(folder):
        with open(os.path.join(folder, name), 'rb') as source:
            input_bytes = source.read()
        result = subprocess.run([PROVED], input=input_bytes, stdout=subprocess.PIPE, check=False)
        cases.append(f'{result.returncode} {checksum(result.stdout):016x} {escaped(input_bytes)}')
    head = [line for line in lines_of() if line.startswith('#')]
    with open(CASES, 'w', encoding='utf-8') as out:
        out.write('\n'.join(head + sorted(cases, key=lambda case: (len(case), case))) + '\n')


if __name__ == '__main__':
    {'inputs': write_inputs, 'cases': write_cases}[sys.argv[1]](sys.argv[2])
