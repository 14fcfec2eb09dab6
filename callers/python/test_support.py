"""Functions that several tests of the package use. It has no tests."""
import os


def uid(name):
    return f'A::"{name}"'


def entities(*pairs):
    """Returns pairs of a uid and its parents, for pairs of a name and the names of the parents."""
    return [(uid(child), [uid(parent) for parent in parents]) for child, parents in pairs]


def resident_bytes():
    """Returns the resident memory of this process in bytes, or 0 if the system does not report it."""
    try:
        with open("/proc/self/statm") as file:
            return int(file.read().split()[1]) * os.sysconf("SC_PAGE_SIZE")
    except OSError:
        return 0
