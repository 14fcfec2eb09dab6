"""Values, expressions, constraints, policies and entities as JSON that PostgreSQL stores, and back.

- Texts of PostgreSQL cannot contain a zero byte, so `escape` replaces it.
- A Boolean, a number and a text are stored as JSON literals. Any other value is a list of nodes, in which each node
  follows its operands: `[["text", "a"], ["long", 1], ["set", 2]]`. So JSON is never as deep as a value.
- A residual expression is `{"expr": nodes}`, and a clause is a list of nodes.

No function here recurses.
"""
from __future__ import annotations

import hashlib
from collections.abc import Mapping as AnyMapping
from collections.abc import Set as AnySet
from typing import Any, Callable, Iterable, Mapping, Optional

from cedar_store import Bound, Constraint, ConstraintKind, Effect, Entity, EntityUid, Policies, values

Json = Any

# A key of a table longer than this, in bytes, is replaced by its hash, because a row of an index has at most 2,704.
MAX_KEY = 600
_LONG_KEY = "\x02"

_ESCAPES = {"\0": "\x010", "\x01": "\x011", "\x02": "\x012"}
_ESCAPED = {escaped: text for text, escaped in _ESCAPES.items()}
_TRANSLATION = str.maketrans(_ESCAPES)


def escape(text: str) -> str:
    """Escapes the characters 0, 1 and 2, each as the character 1 and a digit. Other texts are returned unchanged."""
    return text.translate(_TRANSLATION) if "\0" in text or "\x01" in text or "\x02" in text else text


def unescape(text: str) -> str:
    """Returns the text that `escape` escaped."""
    if "\x01" not in text:
        return text
    first, *rest = text.split("\x01")
    return first + "".join([_ESCAPED["\x01" + part[0]] + part[1:] for part in rest])


class LongTexts:
    """The long texts behind the keys of one change or of one result, by key."""

    def __init__(self, texts: Mapping[str, str] = {}) -> None:
        self.texts = dict(texts)

    def key(self, text: str) -> str:
        """Returns the key of a uid or an id in the tables. Records the text if it is long."""
        escaped = escape(text)
        if len(escaped) * 4 > MAX_KEY and len(escaped.encode()) > MAX_KEY:
            key = _LONG_KEY + hashlib.sha256(escaped.encode()).hexdigest()
            self.texts[key] = escaped
            return key
        return escaped

    def text(self, key: str) -> str:
        """Returns the uid or the id with this key."""
        return unescape(self.texts[key] if key.startswith(_LONG_KEY) else key)

    def uid(self, key: str) -> EntityUid:
        """Returns the uid with this key. The library has checked it before it was written."""
        return str.__new__(EntityUid, self.text(key))


def is_long_key(key: str) -> bool:
    """Returns whether the key stands for a long text."""
    return key.startswith(_LONG_KEY)


def _literal_node(value: object) -> list[Json]:
    if isinstance(value, bool):
        return ["bool", value]
    if isinstance(value, int):
        return ["long", int(value)]
    if isinstance(value, EntityUid):
        return ["uid", escape(value)]
    if isinstance(value, str):
        return ["text", escape(value)]
    raise TypeError(f"a {type(value).__name__} is not a value")


def _value_nodes(root: Any) -> list[Json]:
    """Returns the nodes of a value."""
    nodes: list[Json] = []
    pending = [root]
    while pending:
        value = pending.pop()
        if isinstance(value, values.Extension):
            nodes.append(["call", escape(value.function), escape(value.text)])
        elif isinstance(value, AnyMapping):
            nodes.append(["record", [escape(key) for key in value]])
            pending += value.values()
        elif isinstance(value, (AnySet, list, tuple)):
            nodes.append(["set", len(value)])
            pending += value
        else:
            nodes.append(_literal_node(value))
    nodes.reverse()
    return nodes


def _expr_nodes(root: values.Expr) -> list[Json]:
    """Returns the nodes of an expression."""
    nodes: list[Json] = []
    pending = [root]
    while pending:
        expr = pending.pop()
        nodes.append(_expr_node(expr))
        if not isinstance(expr, values.UnknownExpr):
            pending += expr.operands
    nodes.reverse()
    return nodes


_OPERATORS = {values.Not: "not", values.And: "and", values.Eq: "eq", values.In: "in"}
_BUILDERS: dict[str, tuple[Callable[..., values.Expr], int]] = {
    name: (operator, 1 if operator is values.Not else 2) for operator, name in _OPERATORS.items()
}


def _expr_node(expr: values.Expr) -> list[Json]:
    if isinstance(expr, values.Lit):
        return _literal_node(expr.value)
    if isinstance(expr, values.Var):
        return ["var", expr.name]
    if isinstance(expr, values.Slot):
        return ["slot", expr.name]
    if isinstance(expr, values.UnknownExpr):
        return ["unknown", escape(expr.name), None if expr.type is None else escape(expr.type)]
    if isinstance(expr, values.SetOf):
        return ["set", len(expr.operands)]
    if isinstance(expr, values.Call):
        return ["call", len(expr.operands), escape(expr.function)]
    if isinstance(expr, values.Is):
        return ["is", escape(expr.type)]
    return [_OPERATORS[type(expr)]]


def encode_term(term: values.Term) -> Json:
    """Encodes a value or a residual expression. Raises `TypeError` if the argument is neither."""
    if isinstance(term, values.Expr):
        return {"expr": _expr_nodes(term)}
    if isinstance(term, (bool, int)):
        return term
    if isinstance(term, str) and not isinstance(term, EntityUid):
        return escape(term)
    return _value_nodes(term)


def encode_expr(expr: values.Expr) -> Json:
    """Encodes an expression as a list of nodes."""
    return _expr_nodes(expr)


def decode_term(encoded: Json) -> values.Term:
    """Decodes a value or a residual expression."""
    if isinstance(encoded, str):
        return unescape(encoded)
    if isinstance(encoded, (bool, int)):
        return encoded
    if isinstance(encoded, dict):
        return decode_expr(encoded["expr"])
    stack: list[Any] = []
    for node in encoded:
        stack.append(_decode_value(node, stack))
    (value,) = stack
    return value  # type: ignore[no-any-return]


def _decode_literal(node: list[Json]) -> Any:
    kind, content = node
    if kind == "uid":
        return str.__new__(EntityUid, unescape(content))
    return unescape(content) if kind == "text" else content


def _pop(stack: list[Any], count: int) -> list[Any]:
    """Removes the operands of a node from the stack, and returns them in their order."""
    if count > len(stack):
        raise ValueError("a node has too few operands before it")
    first = len(stack) - count
    operands = stack[first:]
    del stack[first:]
    return operands


def _decode_value(node: list[Json], stack: list[Any]) -> Any:
    """Decodes the value of a node, and removes its operands from the stack."""
    kind = node[0]
    if kind == "call":
        return values.Extension(unescape(node[1]), unescape(node[2]))
    if kind == "record":
        return values.Record(zip(map(unescape, node[1]), _pop(stack, len(node[1]))))
    if kind == "set":
        return _set_of(_pop(stack, node[1]))
    return _decode_literal(node)


def _set_of(members: list[Any]) -> Any:
    """Returns a set of values, of the type with which the library returns it."""
    in_python = frozenset(members)
    if len(in_python) == len(members):
        return in_python
    # Members occur twice, or differ only in Cedar, like true and 1.
    in_cedar = values.CedarSet(members)
    return in_python if len(in_cedar) == len(in_python) else in_cedar


def decode_expr(nodes: Json) -> values.Expr:
    """Decodes an expression."""
    stack: list[values.Expr] = []
    for node in nodes:
        stack.append(_decode_expr(node, stack))
    (expr,) = stack
    return expr


def _decode_expr(node: list[Json], stack: list[Any]) -> values.Expr:
    """Decodes the expression of a node, and removes its operands from the stack."""
    kind = node[0]
    if kind in _BUILDERS:
        builder, count = _BUILDERS[kind]
        return builder(*_pop(stack, count))
    if kind == "var":
        return values.Var(node[1])
    if kind == "slot":
        return values.Slot(node[1])
    if kind == "unknown":
        return values.UnknownExpr(unescape(node[1]), None if node[2] is None else unescape(node[2]))
    if kind == "set":
        return values.SetOf(*_pop(stack, node[1]))
    if kind == "call":
        return values.Call(unescape(node[2]), *_pop(stack, node[1]))
    if kind == "is":
        (operand,) = _pop(stack, 1)
        return values.Is(operand, unescape(node[1]))
    return values.Lit(_decode_literal(node))


def encode_entity(entity: Entity, texts: LongTexts) -> Json:
    """Encodes an entity, with its attributes and tags."""
    return {
        "uid": texts.key(entity.uid),
        "parents": sorted(map(texts.key, entity.parents)),
        "indirect": sorted(map(texts.key, entity.indirect_ancestors)),
        "attributes": {escape(key): encode_term(term) for key, term in entity.attrs.items()},
        "tags": {escape(key): encode_term(term) for key, term in entity.tags.items()},
    }


def decode_entity(row: list[Json], texts: LongTexts) -> Entity:
    """Decodes a row of an entity: its uid, parents, indirect ancestors, attributes and tags."""
    uid, parents, indirect, attributes, tags = row
    return Entity(
        texts.uid(uid),
        list(map(texts.uid, parents)),
        indirect_ancestors=list(map(texts.uid, indirect)),
        attrs={unescape(key): decode_term(term) for key, term in attributes.items()},
        tags={unescape(key): decode_term(term) for key, term in tags.items()},
    )


# The names of the kinds of constraints in the tables.
_KIND_NAMES = {
    ConstraintKind.ANY: "any",
    ConstraintKind.EQ: "is_eq",
    ConstraintKind.EQ_SLOT: "is_eq_slot",
    ConstraintKind.IN: "is_in",
    ConstraintKind.IN_SLOT: "is_in_slot",
    ConstraintKind.IS: "is_entity_type",
    ConstraintKind.IS_IN: "is_entity_type_in",
    ConstraintKind.IS_IN_SLOT: "is_entity_type_in_slot",
}
_KINDS = {name: kind for kind, name in _KIND_NAMES.items()}
_SCOPE = ("principal", "action", "resource")


def _encode_constraint(constraint: Constraint) -> Json:
    encoded: dict[str, Json] = {"kind": _KIND_NAMES[constraint.kind]}
    if constraint.type is not None:
        encoded["type"] = constraint.type
    if constraint.uids:
        encoded["uids"] = list(map(escape, constraint.uids))
    return encoded


def _decode_constraint(encoded: Json) -> Constraint:
    return Constraint(_KINDS[encoded["kind"]], encoded.get("type"), tuple(map(unescape, encoded.get("uids", ()))))


def encode_policy(policies: Policies, id: str, texts: LongTexts) -> Json:
    """Encodes the static policy, the template or the link with this id, as the set has it."""
    bound = policies.get(id)
    row: dict[str, Json] = {"id": texts.key(id)}
    if bound is Bound.LINK:
        slots = zip(_SCOPE, policies.env(id))
        uids = {name: escape(uid) for name, uid in slots if uid is not None}
        return {**row, "kind": "link", "template": texts.key(policies.template_id(id)), "slots": uids}
    clause = policies.non_scope_constraints(id)
    return {
        **row,
        "kind": "template" if bound is Bound.TEMPLATE else "static",
        "effect": policies.effect(id).name.lower(),
        "principal": _encode_constraint(policies.principal_constraint(id)),
        "action": _encode_constraint(policies.action_constraint(id)),
        "resource": _encode_constraint(policies.resource_constraint(id)),
        "annotations": {key: escape(value) for key, value in policies.annotations(id).items()},
        "clause": None if clause is None else encode_expr(clause),
    }


def insert_policy(policies: Policies, row: Json, texts: LongTexts) -> None:
    """Inserts a policy that `encode_policy` encoded.

    Raises:
        CedarError: the set does not accept it. Another program wrote the row.
    """
    id = texts.text(row["id"])
    if row["kind"] == "link":
        slots = {name: unescape(uid) for name, uid in row["slots"].items()}
        policies.link(texts.text(row["template"]), id, **slots)
        return
    insert = policies.add_template if row["kind"] == "template" else policies.add_static
    constraints = {name: _decode_constraint(row[name]) for name in _SCOPE}
    annotations = {key: unescape(value) for key, value in row["annotations"].items()}
    clause: Optional[values.Expr] = None if row["clause"] is None else decode_expr(row["clause"])
    insert(id, Effect[row["effect"].upper()], **constraints, annotations=annotations, when=clause)


def insertion_order(policies: Policies) -> list[str]:
    """Returns all ids of a set in an order in which they can be inserted to get an equal set.

    The set has two orders: one of static policies and templates, and one of static policies and links.
    """
    bodies = iter(policies.bodies())
    ordered: dict[str, None] = {}
    for id in policies.policies():
        body = policies.template_id(id)  # a static policy is its own template
        while body not in ordered:
            ordered[next(bodies)] = None
        ordered[id] = None
    ordered.update(dict.fromkeys(bodies))
    return list(ordered)


def edit_policies(policies: Policies, removed_ids: Iterable[str], rows: Iterable[Json], texts: LongTexts) -> None:
    """Removes policies, links first, and then inserts policies after all others.

    Both are given as the tables have them. Ids that are not bound have no effect.
    """
    bound = [(id, policies.get(id)) for id in map(texts.text, removed_ids)]
    for kind, remove in (
        (Bound.LINK, policies.unlink),
        (Bound.STATIC, policies.remove_static),
        (Bound.TEMPLATE, policies.remove_template),
    ):
        for id, id_kind in bound:
            if id_kind is kind:
                remove(id)
    for row in rows:
        insert_policy(policies, row, texts)
