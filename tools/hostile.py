"""Inputs of hostile sizes and sessions with changed bytes, with the expected output of the program. `bench/run` runs
them.
"""
import collections
import concurrent.futures
import functools
import os
import random
import resource
import subprocess

import session

STACK = 1 << 20
LENGTH = 200
PARENTS = 200
BATCH = 1000


def node(name):
    return b'Node::"%s"' % name


def ent(name, parents):
    return b"\t".join([b"ent", node(name)] + [node(parent) for parent in parents])


def anc(uids):
    return b"\t".join([b"anc"] + sorted(uids)) + b"\n"


def chains(size):
    """Yields a chain of entities three times: in order, in reverse order, and shuffled."""
    names = [b"n%d" % i for i in range(size)]
    rows = [ent(name, names[at:at + 1]) for at, name in enumerate(names, 1)]
    mixed = rows[:]
    random.Random(size).shuffle(mixed)
    queried = (0, size // 2, size - 1)
    expected = b"ok %d\n" % size + b"".join(anc(map(node, names[at + 1:])) for at in queried)
    for order in rows, rows[::-1], mixed:
        yield order + [b"build"] + [b"anc\t" + node(names[at]) for at in queried], expected, 0


def star(size):
    rows = [ent(b"n%d" % i, [b"hub"]) for i in range(size)] + [ent(b"hub", [b"top"])]
    last = [b"build", b"anc\t" + node(b"n0"), b"anc\t" + node(b"n%d" % (size - 1)), b"remove\t" + node(b"hub"), b"anc\t" + node(b"n0")]
    ancestors = anc([node(b"hub"), node(b"top")])
    yield rows + last, b"ok %d\n%s%sok %d\nanc\n" % (size + 1, ancestors, ancestors, size), 0


def dense(size):
    """Yields entities whose parents are the next ones. The last parents do not exist."""
    name = b"n%06d"
    rows = [ent(name % i, [name % up for up in range(i + 1, i + PARENTS + 1)]) for i in range(size)]
    expected = b"ok %d\n" % size + b"".join(anc(node(name % up) for up in range(i + 1, size + PARENTS)) for i in range(size))
    yield rows + [b"build"] + [b"anc\t" + node(name % i) for i in range(size)], expected, 0


def wide(size):
    names = [b"n%d" % i for i in range(size)]
    random.Random(size).shuffle(names)
    yield [ent(b"u", names), b"build", b"anc\t" + node(b"u")], b"ok 1\n" + anc(map(node, names)), 0


def at_uid(uid):
    yield [b"ent\t" + uid + b"\t" + node(b"a"), b"ent\t" + node(b"b") + b"\t" + uid, b"build", b"anc\t" + uid, b"anc\t" + node(b"b")], \
        b"ok 2\n" + anc([node(b"a")]) + b"\t".join([b"anc"] + sorted([node(b"a"), uid], key=session.uid)) + b"\n", 0


def long(size):
    return at_uid(b"::".join(b"c%d" % i for i in range(size)) + b'::"a"')


def eid(size):
    return at_uid(b'T::"' + (b"a\\'b\\\"\\\\ \\n\\u{1}" * (size // 8)) + b'"')


def empty(size):
    yield [b""] * size + [b"build"], b"ok 0\n", 0
    yield [b""] * size + [b"frob"], b"line %d: not a command\n" % (size + 1), 2


INPUTS = {"chains": chains, "star": star, "dense": dense, "wide": wide, "long": long, "eid": eid, "empty": empty}
SIZES = [("chains", 8000), ("star", 100000), ("dense", 200), ("wide", 200000), ("long", 200000), ("eid", 1000000),
         ("empty", 1000000), ("sessions", 100000)]


def on_a_small_stack():
    """Limits the stack of the programs that are started from now on to 1 MiB."""
    resource.setrlimit(resource.RLIMIT_STACK, (STACK, resource.getrlimit(resource.RLIMIT_STACK)[1]))


def run_program(program, session_input):
    """Runs the program, and returns its output and its status."""
    result = subprocess.run([program], input=session_input, stdout=subprocess.PIPE, stderr=subprocess.DEVNULL, close_fds=False)
    return result.stdout, result.returncode


# ---- sessions

ENTITIES = [b"ent"] * 6 + [b"build", b"add", b"upsert", b"anc", b"anc"] * 2 + [b"remove", b"slice", b""]
POLICIES = [b"static", b"template", b"link", b"other", b"merge", b"ids"] * 2 + [b"link", b"unlink"]


def random_uid(rng):
    return rng.choice([b'A::"%s"'] * 4 + [b'B::A::"%s"', b'Action::"%s"']) % rng.choice([b"a", b"b", b"c", b"d", b"\\'", b"\\u{1}"])


def random_line(rng, kinds):
    policy_id = rng.choice([b"p", b"q", b"policy0", b"policy1", b""])
    word = rng.choice(kinds)
    if word in (b"ent", b"remove", b"slice"):
        return [word] + [random_uid(rng) for _ in range(rng.choice([1, 2, 2, 3]))]
    if word == b"anc":
        return [word, random_uid(rng)]
    if word == b"static":
        return [word, policy_id, rng.choice([b"permit", b"forbid"])]
    if word == b"template":
        return [word, policy_id, rng.choice([b"none"] + list(session.SLOTS))]
    if word == b"link":
        slots = session.SLOTS[rng.choice(list(session.SLOTS))]
        return [word, policy_id, rng.choice([b"l", b"m", b"q"])] + [session.MARKS[slot] + random_uid(rng) for slot in slots]
    if word == b"unlink":
        return [word, rng.choice([b"l", b"m", policy_id])]
    if word == b"merge":
        return [word, rng.choice([b"rename", b"rename", b"keep"])]
    return [word]


def random_session(number):
    """Returns a random valid session of up to 200 bytes, and a copy with one to five bytes changed, inserted or
    removed.
    """
    rng, lines, size = random.Random(number), [], 0
    kinds = rng.choice([ENTITIES, ENTITIES, POLICIES, POLICIES, ENTITIES + POLICIES])
    while True:
        line = b"\t".join(random_line(rng, kinds))
        size += len(line) + 1
        if size > LENGTH:
            break
        lines.append(line)
    valid = b"\n".join(lines) + b"\n" * rng.randrange(2)
    changed = bytearray(valid)
    for _ in range(rng.choice([1, 1, 2, 3, 5])):
        at = rng.randrange(len(changed) + 1)
        alphabet = rng.choice([b"abcdpqlmAB", b"abcdpqlmAB", b"\t\n\r \"'\\:_=01\x00\x7f\x80\xff", bytes(range(256)), bytes(changed) or b"a"])
        kind = rng.randrange(4)
        changed[at:at + (kind != 1)] = bytes([rng.choice(alphabet)] if kind else [])
    return valid, bytes(changed[:LENGTH])


def output_kinds(written):
    """Yields the kinds of the output lines: the first word, or the first two words of an error."""
    for line in written.splitlines():
        words = line.split(b"\t")[0].split(b" ")
        yield b" ".join(words[:1 + (words[0] == b"refused:")]).decode()


def check_session(program, number):
    """Runs a session. Returns the fault, or None, and counts of the kinds of output.

    Every fiftieth session is also run unchanged.
    """
    counts, session_input = collections.Counter(), random_session(number)
    for kind, session_input in list(zip(("valid", "changed"), session_input))[number % 50 != 0:]:
        out, status, commands = session.output(session_input)
        actual = run_program(program, session_input)
        if actual != (out, status):
            return f"hostile: session {number} has the wrong output for the input {session_input!r}\nexpected {out!r}, status {status}\nactual {actual[0]!r}, status {actual[1]}", counts
        counts.update([kind, f"status {status}"] + ["with a command"] * (commands > 0) + list(output_kinds(out)))
    return None, counts


def sessions(program, size):
    """Runs this number of sessions. Returns the counts of all of them, or exits at the first fault."""
    totals = collections.Counter()
    with concurrent.futures.ThreadPoolExecutor(os.cpu_count()) as pool:
        for first in range(0, size, BATCH):
            for fault, counts in pool.map(functools.partial(check_session, program), range(first, min(first + BATCH, size))):
                if fault:
                    raise SystemExit(fault)
                totals += counts
    return ", ".join(f"{word} {count:,}" for word, count in sorted(totals.items()))
