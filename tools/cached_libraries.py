#!/usr/bin/env python3
"""Copies the libraries that `rt ci` proved and cached on this machine into this checkout.

    python3 tools/cached_libraries.py [NAME..]

Run it at the top of the repository. It copies the libraries of the named crates and of all their dependencies, or of
all crates. Afterwards `rt check` and `rt lib` prove only the crate itself, not its dependencies.

`rt ci` caches a library under a hash of its files, of the built libraries that it uses, and of the kit. This script
computes the same hash of this checkout, with rt's own code, so a copied library always belongs to the present files.

The rt of some kits caches nothing. There `rt ci` leaves the libraries in `out/rlib` of this checkout, without the stamp
by which the other commands of rt recognize them. The script then writes the stamp of a library that is newer than all
files from which it was made.

rt has no command for this, and its code may change with the kit. If that happens, or if a library is missing, the
script reports it and ends with status 1. Nothing that it did is wrong then, and `rt lib` proves the rest.
"""
import importlib.machinery
import importlib.util
import os
import shutil
import sys


def rt_itself():
    """Returns the code of the command rt, as a module."""
    path = os.path.realpath(shutil.which('rt') or 'rt')
    loader = importlib.machinery.SourceFileLoader('rt_itself', path)
    module = importlib.util.module_from_spec(importlib.util.spec_from_loader('rt_itself', loader))
    sys.modules['rt_itself'] = module
    loader.exec_module(module)
    return module


def with_dependencies(crates, names):
    """Returns the crates with these names and their dependencies, each after its own dependencies."""
    found = {}

    def add(crate):
        for below in crate.below():
            add(below)
        found.setdefault(crate.name, crate)

    for crate in crates:
        if not names or crate.name in names:
            add(crate)
    return list(found.values())


def copy_library(cache, crate):
    """Copies the cached library of a crate. Returns whether the crate has its library now.

    Programs and static libraries have none.
    """
    if crate.is_program or crate.is_static:
        return True
    if any(below.name not in cache.rlibs for below in crate.below()):
        return False
    os.makedirs(f'{crate.folder}/out', exist_ok=True)
    if not crate.is_built():
        # The present files may be hard links to the cached ones, and are in the way.
        shutil.rmtree(f'{crate.folder}/out/rlib', ignore_errors=True)
        if not cache.give(crate, False, cache.key(crate)):
            return False
        with open(f'{crate.folder}/out/rlib/stamp', 'w', encoding='utf-8') as stamp:
            stamp.write(crate.stamp())
    cache.is_built(crate)
    return True


def last_change(crate):
    """Returns the time at which a file of the crate was last changed."""
    paths = (os.path.join(folder, name) for part in ('src', 'specs', 'proofs')
             for folder, _, names in os.walk(f'{crate.folder}/{part}') for name in names)
    return max((os.path.getmtime(path) for path in paths), default=0)


def stamp_library(crate, times):
    """Writes the stamp of the library that `rt ci` left in this checkout. Returns whether the crate has its library now.

    `times` has the time of the library of each crate below.
    """
    if crate.is_program or crate.is_static:
        return True
    library = f'{crate.folder}/out/rlib/{crate.name}.rlib'
    if not os.path.exists(library):
        return False
    times[crate.name] = os.path.getmtime(library)
    below = [times.get(one.name) for one in crate.below()]
    if None in below or max([last_change(crate), *below]) > times[crate.name]:
        return False
    if not crate.is_built():
        with open(f'{crate.folder}/out/rlib/stamp', 'w', encoding='utf-8') as stamp:
            stamp.write(crate.stamp())
    return True


def main(names):
    rt = rt_itself()
    root = os.getcwd()
    if hasattr(rt, 'Kept'):
        rt.Crate.allowed = rt.handles_of(root)
        crates = with_dependencies(rt.crates_of(root), names)
        cache = rt.Kept(crates)
        missing = [crate.name for crate in crates if not copy_library(cache, crate)]
    else:
        crates = with_dependencies(rt.rtlib.crates_below(root), names)
        times = {}
        missing = [crate.name for crate in crates if not stamp_library(crate, times)]
    if missing:
        print(f"cached libraries: these crates have no library that was proved here from these files: {' '.join(missing)}")
    else:
        print(f'cached libraries: the libraries of {len(crates)} crates are up to date')
    return 1 if missing else 0


if __name__ == '__main__':
    try:
        status = main(sys.argv[1:])
    except Exception as error:
        print(f'cached libraries: no library was copied, because the code of rt has changed: {type(error).__name__}: {error}')
        status = 1
    sys.exit(status)
