"""Drawn values, expressions, entities, stores and policy sets, of every kind that the library has."""
from __future__ import annotations

import random
from typing import Any

from cedar_store import CedarError, Constraint, Effect, Entity, EntityUid, Mode, Policies, Store, values

# Characters that need an escape, a quote, or several bytes.
_TEXTS = ("", "a", "b c", "é", "\0", "\x01", "\x02x", "\x010", "\\u0002", "'\"\\", "%s {}", "\U0001f600", "\n", "null")
_FUNCTIONS = ("ip", "decimal", "datetime", "duration")
_TYPES = ("A", "B::C", "Group", "User")
ACTIONS = ('Action::"view"', 'N::Action::"edit"', 'Action::"é"')


def text(rng: random.Random) -> str:
    return "".join(rng.choice(_TEXTS) for _ in range(rng.randrange(3)))


def uid(rng: random.Random) -> EntityUid:
    return EntityUid.make(rng.choice(_TYPES), rng.choice(_TEXTS) + str(rng.randrange(30)))


def action(rng: random.Random) -> EntityUid:
    return EntityUid(rng.choice(ACTIONS))


def long_uid(rng: random.Random) -> EntityUid:
    """Returns a uid that no index of PostgreSQL can have."""
    return EntityUid.make("Long", "".join(rng.choice("abcdefghijkl\xe9\0") for _ in range(rng.randrange(700, 9000))))


def literal(rng: random.Random) -> Any:
    number = rng.choice((0, 1, -1, 2**63 - 1, -(2**63), rng.randrange(-9, 9)))
    return rng.choice((True, False, number, text(rng), uid(rng)))


def value(rng: random.Random, depth: int = 3) -> Any:
    """Returns a value. Some sets have members that are equal in Python only."""
    kind = rng.randrange(8) if depth else 0
    if kind == 5:
        return values.Extension(rng.choice(_FUNCTIONS), text(rng))
    members = [value(rng, depth - 1) for _ in range(rng.randrange(4))] if kind > 5 else []
    if kind == 6:
        return members + rng.choice(([True, 1], [0, [False, 0]], [], []))
    if kind == 7:
        return {text(rng): member for member in members}
    return literal(rng)


def nested(depth: int) -> Any:
    """Returns a value of many levels."""
    result: Any = 1
    for level in range(depth):
        result = [result] if level % 2 else {"a": result}
    return result


def expr(rng: random.Random, depth: int = 4, has_slots: bool = False) -> values.Expr:
    """Returns an expression. Each kind of expression is drawn."""
    if not depth:
        return values.Lit(literal(rng))

    def operand() -> values.Expr:
        return expr(rng, rng.randrange(depth), has_slots)

    kinds = [
        lambda: values.Lit(literal(rng)),
        lambda: rng.choice((values.PRINCIPAL, values.ACTION, values.RESOURCE, values.CONTEXT)),
        lambda: values.UnknownExpr(text(rng), rng.choice((None, "A", "B::C"))),
        lambda: values.SetOf(*(operand() for _ in range(rng.randrange(4)))),
        lambda: values.Call(rng.choice((*_FUNCTIONS, "lessThan")), *(operand() for _ in range(rng.randrange(3)))),
        lambda: values.Not(operand()),
        lambda: values.And(operand(), operand()),
        lambda: values.Eq(operand(), operand()),
        lambda: values.In(operand(), operand()),
        lambda: values.Is(operand(), rng.choice(_TYPES)),
    ]
    if has_slots:
        kinds.append(lambda: values.Slot(rng.choice(("?principal", "?resource"))))
    return rng.choice(kinds)()


def entity(rng: random.Random, name: EntityUid, parents: list[EntityUid]) -> Entity:
    """Returns an entity with drawn attributes and tags. Some attributes are residual expressions."""

    def terms() -> dict[str, Any]:
        return {text(rng): expr(rng, 3) if rng.random() < 0.2 else value(rng) for _ in range(rng.randrange(3))}

    return Entity(name, parents, attrs=terms(), tags=terms())


def entities(rng: random.Random, count: int) -> list[Entity]:
    """Returns entities without a cycle. Some uids are long, and some parents are not entities."""
    names = list(dict.fromkeys(long_uid(rng) if rng.random() < 0.02 else uid(rng) for _ in range(count)))
    result = []
    for place, name in enumerate(names):
        parents = rng.sample(names[:place], min(place, rng.randrange(4)))
        if rng.random() < 0.1:
            parents.append(EntityUid('Missing::"é"') if rng.random() < 0.8 else long_uid(rng))
        result.append(entity(rng, name, parents))
    if result and rng.random() < 0.3:
        deep = Entity(result[0].uid, result[0].parents, attrs={"deep": nested(rng.randrange(100, 600))})
        result[0] = deep
    return result


def constraint(rng: random.Random, is_action: bool, has_slot: bool) -> Constraint:
    """Returns a constraint of a drawn form."""
    if is_action:
        forms = [
            Constraint.any(),
            Constraint.is_eq(action(rng)),
            Constraint.is_in(*(action(rng) for _ in range(rng.randrange(3)))),
        ]
        return rng.choice([Constraint.is_eq_slot(), Constraint.is_in_slot()] if has_slot else forms)
    forms = [
        Constraint.any(),
        Constraint.is_eq(uid(rng)),
        Constraint.is_in(uid(rng)),
        Constraint.is_entity_type(rng.choice(_TYPES)),
        Constraint.is_entity_type_in(rng.choice(_TYPES), uid(rng)),
    ]
    if has_slot:
        forms = [
            Constraint.is_eq_slot(),
            Constraint.is_in_slot(),
            Constraint.is_entity_type_in_slot(rng.choice(_TYPES)),
        ]
    return rng.choice(forms)


def annotations(rng: random.Random) -> dict[str, str]:
    return {rng.choice(("id", "advice", "in", "permit", "x1")): text(rng) for _ in range(rng.randrange(3))}


def policy_id(rng: random.Random, number: int) -> str:
    if rng.random() < 0.01:
        return f"{number}" + "\xe9\0" * rng.randrange(700, 3000)
    return rng.choice(_TEXTS) + str(number)


def slot_values(rng: random.Random, slots: frozenset[str]) -> dict[str, EntityUid]:
    """Returns values for the slots of a template."""
    return {name: action(rng) if name == "action" else uid(rng) for name in sorted(slots)}


def insert_policy(rng: random.Random, policies: Policies, number: int, target: Any = None) -> str:
    """Inserts a static policy, a template or a link into a target, by default the set itself. Returns its id.

    `policies` is the set that has the templates to link.
    """
    id, kind, target = policy_id(rng, number), rng.random(), target or policies
    templates = [name for name in policies.bodies() if policies.slots(name)] if kind < 0.3 else []
    if templates:
        template = rng.choice(templates)
        target.link(template, id, **slot_values(rng, policies.slots(template)))
        return id
    is_template = kind < 0.5
    slots = [is_template and rng.random() < 0.5 for _ in range(3)]
    clause = expr(rng, 4, has_slots=is_template and rng.random() < 0.2) if rng.random() < 0.7 else None
    insert = target.add_template if is_template else target.add_static
    insert(
        id,
        rng.choice(list(Effect)),
        principal=constraint(rng, False, slots[0]),
        action=constraint(rng, True, slots[1]),
        resource=constraint(rng, False, slots[2]),
        annotations=annotations(rng),
        when=clause,
    )
    return id


def policy_set(rng: random.Random, count: int) -> Policies:
    """Returns a set of policies, templates and links."""
    policies = Policies()
    for number in range(count):
        insert_policy(rng, policies, number)
    return policies


def store(rng: random.Random, count: int, mode: Mode) -> Store:
    """Returns a store that a mode built."""
    items = entities(rng, count)
    if mode is Mode.COMPUTE:
        return Store(items)
    if mode is Mode.ASSUME:
        names = [item.uid for item in items]
        return Store(
            [
                Entity(
                    item.uid,
                    item.parents,
                    attrs=item.attrs,
                    tags=item.tags,
                    indirect_ancestors=rng.sample(names, min(2, len(names))),
                )
                for item in items
            ],
            mode,
        )
    with Store(items) as computed:
        closed = [
            Entity(
                item.uid,
                item.parents,
                attrs=item.attrs,
                tags=item.tags,
                indirect_ancestors=[uid for uid in computed.indirect_ancestors(item.uid)],
            )
            for item in items
        ]
    try:
        return Store(closed, mode)
    except CedarError:
        return Store([Entity(item.uid, attrs=item.attrs, tags=item.tags) for item in items], mode)
