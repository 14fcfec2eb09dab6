"""Entities from the JSON of a request. Each error names the field.

An entity is an object like `{"uid": "A::\\"a\\"", "parents": [], "attrs": {}, "tags": {}}`. Only the uid is required.
Values have the form of Cedar's JSON: `{"__entity": {"type": "A", "id": "a"}}` is a uid, and
`{"__extn": {"fn": "ip", "arg": "10.0.0.1"}}` a value of an extension type.
"""
from __future__ import annotations

from typing import Any, Type, TypeVar

from cedar_store import CedarError, Entity, EntityUid, values

MAX_DEPTH = 32

_Kind = TypeVar("_Kind")
_FIELDS: dict[str, type] = {"uid": str, "parents": list, "attrs": dict, "tags": dict}
_KINDS = {str: "a text", list: "a list", dict: "an object", int: "an integer", bool: "a Boolean"}


class FieldError(ValueError):
    """A field of a request is invalid. `field` is its JSON pointer or its name."""

    def __init__(self, text: str, field: str) -> None:
        super().__init__(text)
        self.field = field


def checked(content: Any, kind: Type[_Kind], field: str) -> _Kind:
    """Returns the content of a field. Raises `FieldError` if it does not have the type."""
    if type(content) is not kind:
        raise FieldError(f"expected {_KINDS[kind]}", field)
    return content


def number(text: str, field: str) -> int:
    """Returns the number that a text in decimal notation means. Raises `FieldError` if it is none."""
    if not (text.isascii() and text.isdigit() and len(text) < 19):
        raise FieldError("expected a number", field)
    return int(text)


def uid(content: Any, field: str) -> EntityUid:
    """Returns a uid. Raises `FieldError` if the content is none."""
    try:
        return EntityUid(checked(content, str, field))
    except CedarError as error:
        raise FieldError("not a uid", field) from error


def value(content: Any, field: str, depth: int = 0) -> Any:
    """Returns a value. Raises `FieldError` if the content is none, or has more than `MAX_DEPTH` levels."""
    if depth > MAX_DEPTH:
        raise FieldError(f"more than {MAX_DEPTH} levels", field)
    if isinstance(content, list):
        return [value(member, f"{field}/{place}", depth + 1) for place, member in enumerate(content)]
    if isinstance(content, dict):
        return _object(content, field, depth)
    if isinstance(content, (bool, str)):
        return content
    if not -(1 << 63) <= checked(content, int, field) < 1 << 63:
        raise FieldError("a number must fit into 64 bits", field)
    return content


def _object(content: dict[str, Any], field: str, depth: int) -> Any:
    for key, names in (("__entity", ("type", "id")), ("__extn", ("fn", "arg"))):
        if content.keys() == {key}:
            inner = checked(content[key], dict, f"{field}/{key}")
            first, second = (checked(inner.get(name), str, f"{field}/{key}/{name}") for name in names)
            try:
                return EntityUid.make(first, second) if key == "__entity" else values.Extension(first, second)
            except CedarError as error:
                raise FieldError(str(error), field) from error
    return {key: value(member, f"{field}/{_escaped(key)}", depth + 1) for key, member in content.items()}


def _escaped(key: str) -> str:
    """Returns a key as a part of a JSON pointer."""
    return key.replace("~", "~0").replace("/", "~1")


def entity(content: Any, field: str) -> Entity:
    """Returns an entity. Raises `FieldError` if the content is none."""
    fields = checked(content, dict, field)
    for name in fields.keys() - _FIELDS.keys():
        raise FieldError("unknown field", f"{field}/{_escaped(name)}")
    parts: Any = {name: checked(fields.get(name, kind()), kind, f"{field}/{name}") for name, kind in _FIELDS.items()}
    parents = [uid(parent, f"{field}/parents/{place}") for place, parent in enumerate(parts["parents"])]
    attrs, tags = (value(parts[name], f"{field}/{name}") for name in ("attrs", "tags"))
    if not isinstance(attrs, dict) or not isinstance(tags, dict):
        raise FieldError("expected a record", f"{field}/attrs")
    return Entity(uid(parts["uid"], f"{field}/uid"), parents, attrs=attrs, tags=tags)


def entities(content: Any) -> list[Entity]:
    """Returns the entities of a request's body. Raises `FieldError` if the content is not a list of entities."""
    return [entity(item, f"#/{place}") for place, item in enumerate(checked(content, list, "#"))]


def uids(content: Any) -> list[EntityUid]:
    """Returns the uids of a request's body. Raises `FieldError` if the content is not a list of uids."""
    return [uid(item, f"#/{place}") for place, item in enumerate(checked(content, list, "#"))]
