#!/usr/bin/env python3
"""Tests mutants: small wrong edits of the crates, which the proofs have to kill. Run it at the top of the repository.

    python3 tools/mutants.py [OPTION..] [CRATE..]

- `--jobs N` gives each check N jobs, instead of the number that rt chooses.
- `--must-fail` tries only the mutants in must-fail/, which the full check tries too.
- `--mutants` tries only the mutants in mutants/.
- `--edits NAME,NAME` tries only these mutants.
- `--part K/N` tries the Kth of N parts, so that N processes can share the work.

Callers of a function depend only on its contract. So whether a body can be proved does not depend on other bodies. One
check therefore tries mutants of several functions, with `rt check --only` and these functions. It uses the cached
libraries that tools/cached_libraries.py finds. rt proves the other dependencies.

A mutant is killed if the check reports that its function is not proved because of a goal: an existing proof no longer fits,
or rt finds no proof. If the only errors are lost names, for example a goal or a fact with another name, the contract
was not tested. Such a mutant is reported as a lost name, and is not counted as killed. If a check changes a callee of a
function, the function's mutant waits for a later check.

A mutant that changes something else than a body (a type, a constant or a clause) is tried by a check of the whole
crate.
"""
import glob
import os
import re
import shutil
import subprocess
import sys
import tempfile
import time

# The most mutants of one check. With more, more functions wait for callees.
MOST = 10
OUTCOMES = {'killed': 'killed', 'lost name': 'with a lost name', 'survived': 'survived', 'not tried': 'not tried'}
BEGINS = re.compile(r'^(\s*)(?:pub(?:\([^)]*\))? )?(?:const )?(?:unsafe )?(?:extern "C" )?fn (\w+)')
LOST_NAME = re.compile(r'has no field|is not in scope|has no `|was not admitted|not found: `|no `[^`]*` that can be named|cannot be named|no such name')
DIAGNOSTIC = re.compile(r'^(?:note: )?(?:\./)?((?:proofs|src|specs)/\S+?):\d+:\d+: (.*)$')


class Mutant:
    """A mutant: an edit of one file. It has the replaced texts, and the function whose body contains them, if there is
    one.
    """

    def __init__(self, path, crate):
        self.path, self.name = path, os.path.basename(path)[:-len('.edit')]
        self.file, self.pairs, old = '', [], ''
        with open(path, encoding='utf-8') as lines:
            for line in lines.read().split('\n'):
                if line.startswith('file: '):
                    if self.file not in ('', line[len('file: '):]):
                        sys.exit(f'{path}: a mutant must edit only one file')
                    self.file = line[len('file: '):]
                elif line.startswith('old: '):
                    old = line[len('old: '):]
                elif line.startswith('new:'):
                    self.pairs.append((old, line[len('new: '):]))
        with open(f'{crate}/{self.file}', encoding='utf-8') as text:
            self.text = text.read()
        self.function = self.place()

    def place(self):
        """Returns the function whose body contains all replaced texts, in the form that `--only` takes, or None."""
        if not self.file.startswith('src/') or any(self.text.count(old) != 1 for old, _ in self.pairs):
            return None
        lines = [self.text[:self.text.index(old)].count('\n') for old, _ in self.pairs]
        for start, end, owner, name in bodies(self.text):
            if all(start < line < end for line in lines):
                # Functions in an impl without a trait are named by the type's file, even if the impl is in another file.
                file = [] if owner.endswith('::') else self.file[len('src/'):-len('.rt')].split('/')
                inner = [it for it in (*file, owner.removesuffix('::')) if it and it not in ('lib', 'main')]
                return '::'.join([*inner, name])
        return None

    def edited(self, text):
        """Returns the text of a file with this edit applied."""
        for old, new in self.pairs:
            text = text.replace(old, new, 1)
        return text


def owner_of(head):
    """Returns the name that a check uses for the functions of an `impl`.

    It is the type, followed by the trait with its parameters, or by `::` for an impl without a trait.
    """
    head = re.sub(r'^impl(<(?:[^<>]|<[^<>]*>)*>)? ', '', head.split(' where ')[0].rstrip(' {'))
    trait, _, kind = head.rpartition(' for ')
    kind = re.sub(r"<.*|&(?:'\w+ )?(?:mut )?", '', kind)
    trait_parameters = re.findall(r'<(.*)>', trait)
    inner = ''.join(re.findall(r'\w+', re.sub(r"'\w+", '', trait_parameters[0]))) if trait_parameters else ''
    return kind.split('::')[-1] + (re.sub(r'<.*', '', trait).split('::')[-1] + inner if trait else '::')


def bodies(text):
    """Returns the functions of a file in the layout of `rt fmt`: the lines of the body's braces, the owner and the
    name.
    """
    lines, owner, found, at = text.split('\n'), '', [], 0
    while at < len(lines):
        if lines[at].startswith('impl'):
            head, end = lines[at], at
            while not lines[end].rstrip().endswith('{') and end + 1 < len(lines):
                end += 1
                head += ' ' + lines[end].strip()
            owner = owner_of(head)
        elif lines[at].startswith('}'):
            owner = ''
        begins = BEGINS.match(lines[at])
        if begins:
            opens = at
            while opens < len(lines) and lines[opens] != begins[1] + '{' and not (
                    lines[opens].endswith('{') and (opens == at or lines[opens].startswith(begins[1] + ')'))):
                if lines[opens].endswith(('}', ';')) and opens == at:
                    break
                opens += 1
            ends = opens
            while ends < len(lines) and lines[ends] != begins[1] + '}' and lines[opens].endswith('{'):
                ends += 1
            found.append((opens, ends, owner, begins[2]))
        at += 1
    return found


def diagnostics(output):
    """Returns the errors and notes of a check, each with its file and all its lines."""
    found = []
    for line in output.split('\n'):
        begins = DIAGNOSTIC.match(line)
        if begins:
            found.append([begins[1], begins[2]])
        elif found and line.startswith(' '):
            found[-1][1] += '\n' + line
        else:
            found.append(['', ''])
    return [(file, text) for file, text in found if file]


def outcome_of(output, function):
    """Returns the result of a check for a function, and the beginning of the reason.

    The result is 'killed' (by a goal), 'lost name' (only names are lost), 'waits' (a callee is not proved), 'proved'
    or 'unknown'.
    """
    lines = re.findall(r'(?m)^(?:so far: )?fn (\S+): (.*)$', output)
    own = [(path, rest) for path, rest in lines if ('::' + path).endswith('::' + function)]
    if len({path for path, _ in own}) != 1:
        return 'unknown', ''
    path, rest = own[-1]
    if re.match(r'proved|no holes', rest):
        return 'proved', rest
    if not re.match(r'not proved|no proof', rest):
        return 'unknown', rest
    inner = '/'.join(path.split('::')[1:])
    about = [text for file, text in diagnostics(output) if file.startswith(f'proofs/{inner}/') and text.startswith('error')]
    goals = [text for text in about if not LOST_NAME.search(text)]
    if re.search(r'it calls|it passes|a call of', rest):
        return 'waits', rest
    if goals:
        return 'killed', goals[0].split('\n')[0][:150]
    if about:
        return 'lost name', about[0].split('\n')[0][:150]
    found = re.search(r'`search` did not prove (.*)', rest) or re.search(r'which antt refuses', rest)
    return ('killed', rest[:150]) if found else ('unknown', rest[:150])


def link_or_copy(one, other):
    """Creates a hard link if a check replaces such a file, and a copy otherwise."""
    return os.link(one, other) if one.endswith('.oantt') else shutil.copy2(one, other)


def copy_of_repository(work):
    """Copies the files that a check reads, and the results of earlier checks.

    Files of built libraries are only replaced, never written, so they are hard-linked.
    """

    def copy(one, other):
        try:
            return os.link(one, other) if '/out/rlib/' in one else shutil.copy2(one, other)
        except OSError:
            return shutil.copy2(one, other)

    for name in ('crates.txt', 'HANDLES'):
        shutil.copy2(name, work)
    shutil.copytree('crates', f'{work}/crates', symlinks=True, copy_function=copy)


class Crate:
    """A crate in a copy of the repository, and its mutants."""

    def __init__(self, work, name, options):
        self.name, self.folder, self.jobs = name, f'{work}/crates/{name}', options.jobs
        self.edits = [Mutant(path, self.folder) for path in options.edits_of(self.folder)]
        self.work, self.before = work, time.time()
        self.counts = {'killed': 0, 'lost name': 0, 'survived': 0, 'not tried': 0}

    def print_timed(self, text):
        now = time.time()
        print(f'{now - self.before:5.0f} s  {text}', flush=True)
        self.before = now

    def report(self, edit, kind, text):
        self.counts[kind] += 1
        words = {'killed': 'killed by a goal', 'lost name': 'LOST NAME', 'survived': 'SURVIVED', 'not tried': 'NOT TRIED'}[kind]
        self.print_timed(f'{self.name}/{edit.name}: {words}: {text}')

    def checked(self, edits, only):
        """Checks the crate with these mutants. Returns the output and the status."""
        changed = {edit.file: edit.text for edit in edits}
        for edit in edits:
            changed[edit.file] = edit.edited(changed[edit.file])
        try:
            for file, text in changed.items():
                with open(f'{self.folder}/{file}', 'w', encoding='utf-8') as out:
                    out.write(text)
            words = [word for function in only for word in ('--only', function)]
            ran = subprocess.run(['rt', 'check', *self.jobs, *(['--allow-holes'] if only else []), *words], cwd=self.folder,
                                 stdout=subprocess.PIPE, stderr=subprocess.STDOUT, text=True, errors='replace', check=False)
        finally:
            for edit in edits:
                with open(f'{self.folder}/{edit.file}', 'w', encoding='utf-8') as out:
                    out.write(edit.text)
        return ran.stdout, ran.returncode

    def try_together(self, edits):
        """Tries mutants of different functions in one check. Returns the mutants that wait, and those to be tried one
        by one.
        """
        output, _ = self.checked(edits, [edit.function for edit in edits])
        if not re.search(r'(?m)^fn ', output) and len(edits) > 1:
            half = len(edits) // 2
            first, second = self.try_together(edits[:half]), self.try_together(edits[half:])
            return first[0] + second[0], first[1] + second[1]
        waits, remaining = [], []
        for edit in edits:
            verdict, reason = outcome_of(output, edit.function)
            if verdict in ('killed', 'lost name'):
                self.report(edit, verdict, reason)
            elif verdict == 'waits' and len(edits) > 1:
                waits.append(edit)
            elif verdict == 'proved':
                self.report(edit, 'survived', f'{edit.function} is still proved')
            else:
                remaining.append(edit)
        return waits, remaining

    def try_in_rounds(self, edits):
        """Tries mutants of bodies, one per function at a time. Returns the mutants that have to be tried one by one."""
        remaining = []
        while edits:
            batch, later, taken, texts = [], [], set(), {}
            for edit in edits:
                text = texts.get(edit.file, edit.text)
                # An earlier edit may have changed the text that this one replaces.
                if edit.function in taken or len(batch) == MOST or any(text.count(old) != 1 for old, _ in edit.pairs):
                    later.append(edit)
                else:
                    taken.add(edit.function)
                    texts[edit.file] = edit.edited(text)
                    batch.append(edit)
            waits, more = self.try_together(batch)
            edits = later + waits
            remaining += more
        return remaining

    def try_alone(self, edit):
        """Tries one mutant by a check of the whole crate, as the full check does."""
        output, status = self.checked([edit], [])
        errors = [(file, text) for file, text in diagnostics(output) if text.startswith('error') or file.startswith('src/')]
        goals = [f'{file}: {text}'.split('\n')[0][:150] for file, text in errors if not LOST_NAME.search(text)]
        if status == 0:
            self.report(edit, 'survived', 'the crate is still proved with this mutant')
        elif status == 1 and 'logic=not-proved' in output:
            self.report(edit, *(('killed', goals[0]) if goals else ('lost name', 'the check reports no other error')))
        else:
            self.report(edit, 'not tried', (re.findall(r'(?m)^.*error.*$', output) or [output.strip()[-150:]])[0][:150])

    def run(self):
        """Tries all mutants of the crate."""
        remaining = [edit for edit in self.edits if not edit.function]
        remaining += self.try_in_rounds([edit for edit in self.edits if edit.function])
        for edit in remaining:
            self.try_alone(edit)


class Options:
    """The options before the names of crates: the jobs of a check, and which mutants are tried."""

    def __init__(self, words):
        self.jobs, self.folders, self.part, self.edits = [], ['must-fail', 'mutants'], (1, 1), None
        while words[:1] and words[0].startswith('--'):
            if words[0] in ('--mutants', '--must-fail'):
                self.folders, words = [words[0][2:]], words[1:]
            elif words[0] == '--jobs' and re.fullmatch('[1-9][0-9]*', ''.join(words[1:2])):
                self.jobs, words = words[:2], words[2:]
            elif words[0] == '--edits' and words[1:]:
                self.edits, words = words[1].split(','), words[2:]
            elif words[0] == '--part' and re.fullmatch('[1-9][0-9]*/[1-9][0-9]*', ''.join(words[1:2])):
                first, many = words[1].split('/')
                self.part, words = (int(first), int(many)), words[2:]
            else:
                sys.exit(f'mutants: unknown option {words[0]}\nusage: python3 tools/mutants.py [--must-fail | --mutants] [--jobs N] [--edits A,B] [--part K/N] [NAME..]')
        self.names = words

    def edits_of(self, folder):
        """Returns the mutants of a crate's folder that are tried, in the order of their names."""
        found = sorted(path for it in self.folders for path in glob.glob(f'{folder}/{it}/*.edit'))
        if self.edits is not None:
            found = [path for path in found if os.path.basename(path)[:-len('.edit')] in self.edits]
        first, many = self.part
        return found[first - 1::many]


def main(words):
    options = Options(words)
    names = options.names or sorted(path.split('/')[1] for path in glob.glob('crates/*') if options.edits_of(path))
    for name in names:
        if not os.path.isdir(f'crates/{name}'):
            sys.exit(f'mutants: no crate has the name {name}')
    counts = {'killed': 0, 'lost name': 0, 'survived': 0, 'not tried': 0}
    with tempfile.TemporaryDirectory() as work:
        copy_of_repository(work)
        tool = os.path.abspath(os.path.dirname(__file__))
        subprocess.run([sys.executable, f'{tool}/cached_libraries.py', *names], cwd=work, check=False)
        crates = [Crate(work, name, options) for name in names]
        print(f'{sum(len(crate.edits) for crate in crates)} mutants of {len(crates)} crates', flush=True)
        for crate in crates:
            crate.run()
            summary = ', '.join(f'{count} {OUTCOMES[kind]}' for kind, count in crate.counts.items())
            print(f'{crate.name}: {len(crate.edits)} mutants: {summary}', flush=True)
            for kind, count in crate.counts.items():
                counts[kind] += count
    print(', '.join(f'{count} {OUTCOMES[kind]}' for kind, count in counts.items()))
    return 0 if counts['killed'] and not (counts['lost name'] or counts['survived'] or counts['not tried']) else 1


if __name__ == '__main__':
    sys.exit(main(sys.argv[1:]))
