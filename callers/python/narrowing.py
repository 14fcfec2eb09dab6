"""A program whose types a checker narrows. `callers/run` checks it with `mypy --strict`, and runs it as a test."""
from dataclasses import dataclass
from typing import List

from cedar_store import (
    CedarError,
    Constraint,
    Cycle,
    DuplicateEntity,
    Entity,
    EntityUid,
    IdInUse,
    Policies,
    Store,
    Unknown,
    UnknownEntity,
)
from cedar_store.values import PRINCIPAL, CedarSet, Expr, Extension, Lit, ReadTerm, Record, Slot


@dataclass
class User:
    """A user, as an entity: `age` and `home` are attributes."""

    uid: str
    parents: List[str]
    age: int
    home: "Home"


@dataclass
class Home:
    """A record."""

    city: str


def describe(term: ReadTerm) -> str:
    """Returns a text for a term. Each branch uses what only its type has."""
    if isinstance(term, Record):
        return "record of " + ", ".join(sorted(term))
    if isinstance(term, CedarSet) or isinstance(term, frozenset):
        return f"set of {len(term)}"
    if isinstance(term, Extension):
        return f"{term.function}({term.text})"
    if isinstance(term, Expr):
        return f"expression with {len(term.operands)} operands"
    if isinstance(term, EntityUid):
        return f"uid with the id {term.id}"
    if isinstance(term, bool):
        return "true" if term else "false"
    if isinstance(term, int):
        return f"number of {term.bit_length()} bits"
    return f"string of {len(term.encode())} bytes"


def main() -> None:
    """Prints a text for each attribute, and what exceptions name."""
    alice = Entity(
        'User::"alice"',
        attrs={
            "a": True, "b": 5, "c": "é", "d": EntityUid('User::"bob"'), "e": [1, 2], "f": [1, True],
            "g": Extension("ip", "::1"), "h": {"x": {"y": 1}}, "i": PRINCIPAL.eq(Lit("x")),
        },
    )
    store = Store([alice, User('User::"carol"', ['Group::"staff"'], 41, Home("Rome"))])
    for key in store.attr_keys(alice.uid):
        term = store.get(alice.uid, key)
        if term is not None:
            print(key, describe(term))
    found = store.entity('User::"carol"')
    if found is not None and found is not Unknown.UNKNOWN:
        home = found.attrs["home"]
        if isinstance(home, Record):
            print(found.uid.id, home["city"], found.attrs["age"])
    print_errors(store)


def print_errors(store: Store) -> None:
    """Prints what exceptions name."""
    policies = Policies()
    policies.add_template("t", principal=Slot("?principal"), resource=Constraint.is_in_slot())
    try:
        store.add({'User::"alice"': []})
    except DuplicateEntity as error:
        print(error.uid.id)
    try:
        store.upsert({'Group::"staff"': ['Group::"staff"']})
    except Cycle as error:
        print(error.uid.type)
    try:
        store['User::"zoe"']
    except UnknownEntity as error:
        print(error.uid.id, isinstance(error, KeyError))
    try:
        policies.add_static("t")
    except IdInUse as error:
        print(error.id)
    except CedarError as error:
        print(error.reason, error.names)


main()
