"""A plain model of the program: computes the output for an input.

It follows the definitions of commands in `EntityCommand.antt` of `cedar_entity_lines` and `PolicyCommand.antt` of
`cedar_policy_lines`, and of their output in `EntityOutput.antt`, `PolicyOutput.antt` and `Output.antt` of
`cedar_store`.

An input store is a dictionary from the texts of uids to sets of parents. A policy set is a dictionary of bodies and a dictionary of
policies, in insertion order. `bench/run` compares the program with this model.
"""
import re

RESERVED = {b"true", b"false", b"if", b"then", b"else", b"in", b"like", b"has", b"is", b"__cedar"}
NAME = re.compile(rb"[A-Za-z_][A-Za-z0-9_]*(?:::[A-Za-z_][A-Za-z0-9_]*)*")
CHARACTER = re.compile(rb"""[ !#-&(-\[\]-~]|\\[0tnr'"\\]|\\u\{(?:[1-8bcef]|1[0-9a-f]|7f)\}""")
SIGNS = {b"0": b"\0", b"t": b"\t", b"n": b"\n", b"r": b"\r"}
SLOTS = {b"none": (), b"principal": (0,), b"action": (1,), b"resource": (2,), b"both": (0, 2), b"all": (0, 1, 2)}
MARKS = [b"principal=", b"action=", b"resource="]


def uid(text):
    """Returns the sort key of a uid (basename, path and eid), or None if the text is not a uid."""
    name, mark, rest = text.partition(b'::"')
    if not mark or not rest.endswith(b'"') or not NAME.fullmatch(name):
        return None
    parts = name.split(b"::")
    if RESERVED & set(parts):
        return None
    eid, at, last = b"", 0, len(rest) - 1
    while at < last:
        found = CHARACTER.match(rest, at, last)
        if not found:
            return None
        sign, at = found.group(), found.end()
        if sign[:2] == b"\\u":
            sign = bytes([int(sign[3:-1], 16)])
        elif sign[:1] == b"\\":
            sign = SIGNS.get(sign[1:], sign[1:])
        eid += sign
    return parts[-1], parts[:-1], eid


def is_action(text):
    return uid(text)[0] == b"Action"


def escaped(text):
    return re.sub(rb"""['"\\]""", rb"\\\g<0>", text)


def ancestors(store, start):
    """Returns the uids that are reachable from some uids over parents."""
    reached, left = set(), [parent for own in start for parent in store.get(own, ())]
    while left:
        one = left.pop()
        if one not in reached:
            reached.add(one)
            left += store.get(one, ())
    return reached


def is_cyclic(store):
    children, ready, seen = {}, [], 0
    for own, parents in store.items():
        for parent in parents:
            if parent in store:
                children.setdefault(parent, []).append(own)
        if not any(parent in store for parent in parents):
            ready.append(own)
    count = {own: sum(parent in store for parent in parents) for own, parents in store.items()}
    while ready:
        seen += 1
        for child in children.get(ready.pop(), ()):
            count[child] -= 1
            if not count[child]:
                ready.append(child)
    return seen < len(store)


class Session:
    def __init__(self):
        self.queue, self.store, self.current, self.other = [], {}, ({}, {}), ({}, {})

    def ok_line(self):
        return b"ok %d\n" % len(self.store)

    def close(self, store):
        if is_cyclic(store):
            self.store = {}
            return b"refused: cycle\n"
        self.store = store
        return self.ok_line()

    def add_queued(self, base):
        queue, self.queue = self.queue, []
        store = dict(base)
        for own, parents in queue:
            existing = ancestors(base, [own]) if own in base else store.setdefault(own, parents)
            if existing != parents:
                self.store = {}
                return b"refused: duplicate %s\n" % own
        return self.close(store)

    def entity_line(self, word, uids):
        """Returns the output of a command on entities, or None if the line is not one."""
        if not all(uid(text) for text in uids):
            return None
        if word == b"ent" and uids:
            self.queue.append((uids[0], frozenset(uids[1:])))
            return b""
        if word == b"anc" and len(uids) == 1:
            if uids[0] not in self.store:
                return b"no entity\n"
            return b"\t".join([b"anc"] + sorted(ancestors(self.store, uids), key=uid)) + b"\n"
        if word in (b"remove", b"slice") and uids:
            removed = set(uids) & set(self.store)
            if word == b"slice":
                removed = set(self.store) - set(uids) - ancestors(self.store, uids)
            self.store = {own: parents - removed if word == b"remove" else parents for own, parents in self.store.items() if own not in removed}
            return self.ok_line()
        if uids:
            return None
        if word == b"build":
            return self.add_queued({})
        if word == b"add":
            return self.add_queued(self.store)
        if word == b"upsert":
            queue, self.queue = self.queue, []
            return self.close({**self.store, **dict(queue)})
        return None

    def bind(self, own, body, policy):
        bodies, policies = self.current
        if own in bodies or own in policies:
            return b"refused: occupied %s\n" % escaped(own)
        if body is not None:
            bodies[own] = body
        if policy is not None:
            policies[own] = policy
        return b"ok\n"

    def link(self, template, own, fields):
        """Returns the output of a command that links, or None if the line is not one."""
        bound = {}
        for field in fields:
            slot = next((slot for slot in range(3) if field.startswith(MARKS[slot]) and uid(field[len(MARKS[slot]):])), None)
            if slot is None or slot in bound:
                return None
            bound[slot] = field[len(MARKS[slot]):]
        bodies, policies = self.current
        if template not in bodies or template in policies:
            return b"refused: no template %s\n" % escaped(template)
        if set(bodies[template][1]) != set(bound):
            return b"refused: arity\n"
        if 1 in bound and not is_action(bound[1]):
            return b"refused: not an action %s\n" % bound[1]
        return self.bind(own, None, (template, bodies[template], bound))

    def unlink(self, own):
        bodies, policies = self.current
        if own in policies and policies[own][0] is not None:
            del policies[own]
            return b"ok\n"
        kind = b"not a link" if own in bodies else b"no link"
        return b"refused: %s %s\n" % (kind, escaped(own))

    def merge(self, rename):
        (bodies, policies), (others, further) = self.current, self.other
        differ = [own for here, there in ((bodies, others), (policies, further), (policies, others), (bodies, further))
                  for own in there if own in here and (policies.get(own), bodies.get(own)) != (further.get(own), others.get(own))]
        differ = list(dict.fromkeys(differ))
        if differ and not rename:
            return b"refused: occupied %s\n" % escaped(differ[0])
        new, number = {}, 0
        for own in differ:
            while any(b"policy%d" % number in bound_ids for bound_ids in (bodies, policies, others, further)):
                number += 1
            new[own], number = b"policy%d" % number, number + 1
        bound = set(bodies) | set(policies)
        for own, body in others.items():
            if new.get(own, own) not in bound:
                bodies[new.get(own, own)] = body
        for own, (template, body, values) in further.items():
            if new.get(own, own) not in bound:
                policies[new.get(own, own)] = new.get(template, template), body, values
        return b"\t".join([b"ok"] + [escaped(text) for pair in new.items() for text in pair]) + b"\n"

    def policy_line(self, fields):
        """Returns the output of a command on policy sets, or None if the line is not one."""
        word, rest = fields[0], fields[1:]
        if word == b"static" and len(rest) == 2 and rest[1] in (b"permit", b"forbid"):
            body = rest[1], ()
            return self.bind(rest[0], body, (None, body, {}))
        if word == b"template" and len(rest) == 2 and rest[1] in SLOTS:
            return self.bind(rest[0], (b"permit", SLOTS[rest[1]]), None)
        if word == b"link" and len(rest) >= 2:
            return self.link(rest[0], rest[1], rest[2:])
        if word == b"unlink" and len(rest) == 1:
            return self.unlink(rest[0])
        if word == b"other" and not rest:
            self.current, self.other = self.other, self.current
            return b"ok\n"
        if word == b"merge" and len(rest) == 1 and rest[0] in (b"rename", b"keep"):
            return self.merge(rest[0] == b"rename")
        if word == b"ids" and not rest:
            lines = ([b"bodies", *self.current[0]], [b"policies", *self.current[1]])
            return b"".join(b"\t".join([line[0]] + [escaped(own) for own in line[1:]]) + b"\n" for line in lines)
        return None

    def line(self, line):
        """Returns the output of a line, or None if it is not a command."""
        if not line:
            return b""
        if re.search(rb"[^\t -~]", line):
            return None
        fields = line.split(b"\t")
        line_output = self.entity_line(fields[0], fields[1:])
        return self.policy_line(fields) if line_output is None else line_output


def output(input_bytes):
    """Returns the output for an input, the status, and the number of lines that were commands."""
    session, out = Session(), []
    for number, line in enumerate(input_bytes.split(b"\n"), 1):
        line_output = session.line(line)
        if line_output is None:
            return b"".join(out) + b"line %d: not a command\n" % number, 2, number - 1
        out.append(line_output)
    return b"".join(out), 0, number
