#!/usr/bin/env python3
"""Prints the path of a proved program, if it was built in this checkout from the present files.

    python3 tools/proved_program.py CRATE

Run it at the top of the repository. CRATE is a program's crate, such as cedar_store_cli. It takes about a second, and
builds nothing. The status is 1, and nothing is printed, if there is no such program, if a source changed since it was
built, or if rt is missing. rt stores a hash of the sources beside each program that it builds. This script computes the
same hash with rt's own code.
"""
import os
import sys

sys.dont_write_bytecode = True
from cached_libraries import rt_itself


def proved_program(name):
    """Returns the path of the up-to-date program of a crate, or `None`."""
    rt = rt_itself()
    for crate in rt.rtlib.crates_below(os.getcwd()):
        if crate.name == name:
            program = f'{crate.folder}/out/{name}'
            with open(f'{program}.stamp', encoding='utf-8') as stored:
                stamp = stored.read()
            return program if stamp == crate.stamp() + rt.rtlib.sum_of(program) else None
    return None


if __name__ == '__main__':
    try:
        found = proved_program(sys.argv[1])
    except Exception:  # rt is missing, its code has changed, or no program was built
        found = None
    if not found:
        sys.exit(1)
    print(found)
