"""Inputs whose ids collide under the fixed seed of the default hasher, and the same inputs with ordinary ids of equal
lengths.

The default hasher computes a product of two 64-bit numbers and combines its halves by exclusive or. One factor is the
state combined with eight bytes, the other is a constant combined with eight bytes. If the state is known, eight bytes
can be chosen that make the factor 0. The result is then 0, whatever the other bytes are.
"""
MULTIPLIER, SEED, ONES = 0x9E3779B97F4A7C15, 0x243F6A8885A308D3, (1 << 64) - 1
EDITS = 1000


def folded_product(one, other):
    product = one * other
    return product & ONES ^ product >> 64


def short(state, number, length):
    """Returns the state of the hasher after up to eight bytes, given as a number."""
    return folded_product(state ^ number, MULTIPLIER ^ 2 * length)


def long(state, text):
    """Returns the state of the hasher after sixteen bytes of a longer text."""
    return folded_product(state ^ int.from_bytes(text[:8], "little"), MULTIPLIER ^ int.from_bytes(text[8:], "little"))


def printable(number):
    """Returns the eight bytes of a number as a text, or None if a byte would have to be escaped in a line."""
    text = number.to_bytes(8, "little")
    return text.decode() if all(32 < b < 127 and b not in b'"\\' for b in text) else None


def colliding_type():
    """Returns a type and a prefix of eight characters. Every eid of 16 characters with the prefix makes the state 0."""
    for number in range(100000):
        name = f"T{number:05}"
        text = name.encode()
        state = short(SEED, int.from_bytes(text[:4] + text[-4:], "little"), len(text))
        state = short(short(state, 0xFFFFFF, 1), 0, 8)
        head = printable(state + 16 & ONES)
        if head:
            return name, head
    raise SystemExit("colliding ids: found no type whose uids collide")


def colliding_start():
    """Returns a prefix of 24 characters. Every id of 32 characters with the prefix makes the state 0."""
    for number in range(1000000):
        start = f"policy{number:010}"
        head = printable(long(SEED + 32 & ONES, start.encode()))
        if head:
            return start + head
    raise SystemExit("colliding ids: found no ids that collide")


def edits(size):
    """Yields edits of one entity each, of a store of entities without parents. Half of them overwrite an entity."""
    for edit in range(EDITS):
        number = (edit * 7919 + 1) % size
        if edit % 4 == 3:
            yield "remove", number, []
        else:
            yield "upsert", number, [(number * 31 + edit) % number] if number else []


def store_lines(shape, size, uid):
    """Yields the lines that build a store, and edit it for the shape `edits`.

    The entities have no parents, have the first entity as parent (`star`), or form a chain (`chain`).
    """
    for i in range(size):
        parents = {"star": [0] if i else [], "chain": [i - 1] if i else []}.get(shape, [])
        yield ["ent", uid(i)] + [uid(parent) for parent in parents]
    yield ["build"]
    if shape == "edits":
        for verb, number, parents in edits(size):
            if verb == "remove":
                yield ["remove", uid(number)]
            else:
                yield ["ent", uid(number)] + [uid(parent) for parent in parents]
                yield ["upsert"]


def set_lines(shape, size, name):
    """Yields the lines that fill a policy set with static policies or with links of one template, or that merge two
    sets.
    """
    if shape == "links":
        yield ["template", name(size), "principal"]
        for i in range(size):
            yield ["link", name(size), name(i), 'principal=User::"one"']
    elif shape == "static policies":
        for i in range(size):
            yield ["static", name(i), "permit"]
    else:
        for effect in "permit", "forbid":
            for i in range(size // 2):
                yield ["static", name(i), "permit" if i % 2 else effect]
            yield ["other"]
        yield ["merge", "rename"]
    yield ["ids"]


def stores(size):
    """Yields each store with a title: its lines with colliding uids, and with ordinary uids."""
    name, head = colliding_type()
    for shape, count in ("single", size), ("star", size), ("chain", size // 20), ("edits", size):
        for kind, start in ("colliding", head), ("ordinary", "ordinary"):
            yield f"{shape} {count:,} of {kind} uids", store_lines(shape, count, lambda i, name=name, start=start: f'{name}::"{start}{i:08}"')


def sets(size):
    """Yields each policy set with a title: its lines with colliding ids, and with ordinary ids."""
    start = colliding_start()
    for shape in "static policies", "links", "merge":
        for kind, head in ("colliding", start), ("ordinary", start[:16] + "ordinary"):
            yield f"{shape} {size:,} of {kind} ids", set_lines(shape, size, lambda i, head=head: f"{head}{i:08}")
