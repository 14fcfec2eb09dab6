#!/usr/bin/env python3
"""Shows the progress of the proofs: the number of proved crates, and the estimated minutes left by
tools/proof_times.txt.

`rt ci | python3 tools/progress.py` prints each line of its input. After a line that reports a proved crate, it prints
the progress to standard error: at a terminal in one line that is overwritten, otherwise in a line of its own. With
`--group FILE` and a limit in minutes in the variable TEST_MINUTES, it ends the process group that FILE names, if the
time that is left cannot suffice.

`python3 tools/progress.py CRATE PID` is for a build of one crate and its dependencies, which reports less. It checks
every second which dependencies have an up-to-date library, until the process PID ends.
"""
import glob
import os
import re
import signal
import sys
import time

TOP = os.path.dirname(os.path.dirname(os.path.abspath(__file__)))
DONE = re.compile(r'^rt: (cedar_\w+) (?:proved|is kept:)')
# the assumed processor time in seconds of a crate that the table does not list, and of a mutant
UNKNOWN, MUTANT = 100, 30


def crates():
    """Returns the crates of crates.txt, each with its dependencies."""
    found = {}
    with open(os.path.join(TOP, 'crates.txt'), encoding='utf-8') as lines:
        for line in lines:
            name, colon, uses = line.split('#')[0].partition(':')
            if colon:
                found[name.split()[0]] = uses.split()
    return found


def seconds():
    """Returns the estimated processor time of each crate in seconds, by tools/proof_times.txt."""
    found = {}
    with open(os.path.join(TOP, 'tools', 'proof_times.txt'), encoding='utf-8') as lines:
        for line in lines:
            if not line.startswith('#'):
                name, _, own, edits, _ = line.split()
                found[name] = (int(own) or UNKNOWN) + (int(edits) and int(own) + int(edits) * MUTANT)
    return found


def with_dependencies(uses, name):
    """Returns a crate and its dependencies in the repository."""
    found, left = set(), [name]
    while left:
        crate = left.pop()
        if crate in uses and crate not in found:
            found.add(crate)
            left += uses[crate]
    return found


class Progress:
    """The progress line. At a terminal it is overwritten.

    The estimate of the remaining time uses the speed of this machine, once crates that take five minutes are proved.
    """

    def __init__(self, all_names):
        self.all, self.done, self.cost, self.width = set(all_names), set(), seconds(), 0
        self.start, self.proved = time.monotonic(), 0
        self.processors = max(1, min(4, os.cpu_count() or 1))

    def add(self, name, is_kept):
        """Adds a crate that is done. A crate that is kept from an earlier run took no time."""
        self.done.add(name)
        if not is_kept:
            self.proved += self.cost.get(name, UNKNOWN)

    def elapsed(self):
        return (time.monotonic() - self.start) / 60

    def left(self):
        """Returns the estimated minutes that are left."""
        minutes = sum(self.cost.get(name, UNKNOWN) for name in self.all - self.done) / self.processors / 60
        if self.proved >= 300:
            minutes *= min(5, max(0.2, self.elapsed() * 60 * self.processors / self.proved))
        return minutes

    def show(self):
        text = f'{len(self.done)} of {len(self.all)} crates are proved, {round(self.elapsed())} minutes so far'
        if self.all - self.done:
            text += f', about {max(1, round(self.left()))} minutes left'
        if sys.stderr.isatty():
            print('\r' + text.ljust(self.width), end='' if self.all - self.done else '\n', file=sys.stderr, flush=True)
            self.width = len(text)
        else:
            print(text, file=sys.stderr, flush=True)

    def clear(self):
        if sys.stderr.isatty() and self.width:
            print('\r' + ' ' * self.width + '\r', end='', file=sys.stderr, flush=True)


def is_built(name):
    """Returns whether the library of a crate exists and no source of the crate is newer."""
    folder = os.path.join(TOP, 'crates', name)
    built = os.path.join(folder, 'out', 'rlib', f'{name}.rlib')
    if not os.path.exists(built):
        return False
    build_time = os.path.getmtime(built)
    return all(os.path.getmtime(file) <= build_time for part in ('src', 'specs', 'proofs')
               for file in glob.glob(f'{folder}/{part}/**', recursive=True) if os.path.isfile(file))


def watch(name, process):
    """Checks the libraries of a crate's dependencies until a process ends. Prints nothing if all exist at the start."""
    names = with_dependencies(crates(), name) - {name}
    progress = Progress(names)
    progress.done = {crate for crate in names if is_built(crate)}
    if progress.done == names:
        return
    progress.show()
    while os.path.exists(f'/proc/{process}'):
        time.sleep(1)
        built = {crate for crate in names if is_built(crate)}
        if built != progress.done:
            progress.done = built
            progress.show()
        if built == names:
            return
    progress.clear()


def filter_input(limit, leader):
    """Prints each line of standard input, and the progress.

    If the estimate shows that a limit in minutes cannot be kept, prints that, and ends the processes of a group. The
    limit counts as missed if three quarters of the estimate are too much, after half an hour.
    """
    progress = Progress(crates())
    for line in sys.stdin:
        progress.clear()
        print(line, end='', flush=True)
        found = DONE.match(line)
        if found and found.group(1) in progress.all - progress.done:
            progress.add(found.group(1), 'is kept' in line)
            progress.show()
            used, left = progress.elapsed(), progress.left()
            if limit and used > 30 and used + 0.75 * left > limit:
                print(f'progress: STOPPED: {round(used)} of {limit} minutes are used, and about {round(left)} more are needed', flush=True)
                with open(leader, encoding='utf-8') as group:
                    os.killpg(int(group.read()), signal.SIGTERM)
                return 1
    return 0


if __name__ == '__main__':
    if len(sys.argv) == 3 and sys.argv[1] == '--group':
        sys.exit(filter_input(int(os.environ.get('TEST_MINUTES') or 0), sys.argv[2]))
    elif len(sys.argv) == 3:
        watch(sys.argv[1], sys.argv[2])
    elif len(sys.argv) == 1:
        sys.exit(filter_input(0, None))
    else:
        sys.exit('usage: progress.py [CRATE PID | --group FILE]')
