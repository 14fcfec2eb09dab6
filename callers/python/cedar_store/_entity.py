"""Entities, and the marker for an entity that a partial store does not know."""
from __future__ import annotations

import dataclasses
import enum
from typing import Any, FrozenSet, Iterable, Mapping

from ._uids import EntityUid
from .values import Expr, Record, Term, fields_of, same


class Unknown(enum.Enum):
    """The lookup result of a partial store for a uid that it does not contain: the entity is unknown."""

    UNKNOWN = "unknown"


_NONE: FrozenSet[EntityUid] = frozenset()
_NO_TERMS = Record()


class Entity:
    """An entity to insert into a store, or a snapshot of one that was read. It is immutable.

    It has a uid, parents, attributes, tags and indirect ancestors. An attribute or a tag is a value or a residual
    expression (see `cedar_store.values`). Indirect ancestors are the ancestors that are not parents. Two entities are
    equal if all their parts are equal.

    Raises:
        NotAUid: a text is not a uid.
        TypeError: one text was given where a list of uids is expected, or a text is not a `str`.

    >>> alice = Entity('User::"alice"', ['Group::"staff"'], attrs={"age": 41})
    >>> alice.attrs["age"], sorted(alice.ancestors)
    (41, [EntityUid('Group::"staff"')])
    """

    __slots__ = ("uid", "parents", "attrs", "tags", "indirect_ancestors")
    uid: EntityUid
    parents: FrozenSet[EntityUid]
    attrs: Record
    tags: Record
    indirect_ancestors: FrozenSet[EntityUid]

    def __init__(
        self,
        uid: str,
        parents: Iterable[str] = (),
        *,
        attrs: Mapping[str, Term] = {},
        tags: Mapping[str, Term] = {},
        indirect_ancestors: Iterable[str] = (),
    ) -> None:
        own_parents = _as_uids(parents) if parents else _NONE
        _set_uid(self, uid if type(uid) is EntityUid else _as_uid(uid))
        _set_parents(self, own_parents)
        _set_attrs(self, Record(attrs) if attrs else _NO_TERMS)
        _set_tags(self, Record(tags) if tags else _NO_TERMS)
        _set_indirect(self, _as_uids(indirect_ancestors) - own_parents if indirect_ancestors else _NONE)

    def __setattr__(self, name: str, _: object) -> None:
        raise dataclasses.FrozenInstanceError(f"cannot assign to field {name!r}")

    def __delattr__(self, name: str) -> None:
        raise dataclasses.FrozenInstanceError(f"cannot delete field {name!r}")

    @classmethod
    def from_dataclass(cls, instance: Any) -> Entity:
        """Returns the entity of a dataclass instance.

        Its fields `uid`, `parents`, `tags` and `indirect_ancestors` are the parts of the entity. All others are
        attributes. Only `uid` is required.

        Raises:
            TypeError: the instance is no dataclass instance, or has no field `uid`.
            NotAUid: a text is not a uid.

        >>> @dataclasses.dataclass
        ... class User:
        ...     uid: str
        ...     parents: list
        ...     age: int
        >>> Entity.from_dataclass(User('User::"alice"', ['Group::"staff"'], 41)).attrs
        {'age': 41}
        """
        if not dataclasses.is_dataclass(instance) or isinstance(instance, type):
            raise TypeError(f"expected a dataclass instance, got {instance!r}")
        attrs = fields_of(instance)
        if "uid" not in attrs:
            raise TypeError(f"the dataclass {type(instance).__name__} has no field uid")
        uid, parents = attrs.pop("uid"), attrs.pop("parents", ())
        tags, indirect = attrs.pop("tags", {}), attrs.pop("indirect_ancestors", ())
        return cls(uid, parents, attrs=attrs, tags=tags, indirect_ancestors=indirect)

    @property
    def ancestors(self) -> FrozenSet[EntityUid]:
        """Returns the parents and the indirect ancestors."""
        return self.parents | self.indirect_ancestors

    @property
    def has_content(self) -> bool:
        """Returns whether the entity has attributes, tags or indirect ancestors."""
        return bool(self.attrs or self.tags or self.indirect_ancestors)

    def __eq__(self, other: object) -> bool:
        if not isinstance(other, Entity):
            return NotImplemented
        return (
            (self.uid, self.parents, self.indirect_ancestors) == (other.uid, other.parents, other.indirect_ancestors)
            and _have_equal_terms(self.attrs, other.attrs)
            and _have_equal_terms(self.tags, other.tags)
        )

    def __hash__(self) -> int:
        return hash((self.uid, self.parents))

    def __repr__(self) -> str:
        parts = [repr(str(self.uid)), repr(sorted(map(str, self.parents)))]
        parts += [f"{name}={dict(terms)!r}" for name, terms in (("attrs", self.attrs), ("tags", self.tags)) if terms]
        if self.indirect_ancestors:
            parts.append(f"indirect_ancestors={sorted(map(str, self.indirect_ancestors))!r}")
        return f"{type(self).__name__}({', '.join(parts)})"

    def __reduce__(self) -> Any:
        return _entity_of, (type(self), self.uid, self.parents, self.attrs, self.tags, self.indirect_ancestors)


# The setters of the slots, which are faster than `object.__setattr__`.
_set_uid: Any = vars(Entity)["uid"].__set__
_set_parents: Any = vars(Entity)["parents"].__set__
_set_attrs: Any = vars(Entity)["attrs"].__set__
_set_tags: Any = vars(Entity)["tags"].__set__
_set_indirect: Any = vars(Entity)["indirect_ancestors"].__set__


def _entity_of(entity_type: Any, uid: Any, parents: Any, attrs: Any, tags: Any, indirect_ancestors: Any) -> Any:
    """Returns an entity from its parts, for `pickle`. Does not call `__init__`: a subclass can change its arguments."""
    new = object.__new__(entity_type)
    for set_part, part in (
        *((_set_uid, uid), (_set_parents, parents), (_set_attrs, attrs), (_set_tags, tags)),
        (_set_indirect, indirect_ancestors),
    ):
        set_part(new, part)
    return new


def _have_equal_terms(one: Mapping[str, Term], other: Mapping[str, Term]) -> bool:
    if one.keys() != other.keys():
        return False
    for key, term in one.items():
        other_term = other[key]
        if isinstance(term, Expr) or isinstance(other_term, Expr):
            if term != other_term:
                return False
        elif not same(term, other_term):
            return False
    return True


def _as_uid(text: str) -> EntityUid:
    """Returns the text as an `EntityUid`. Raises `NotAUid` if it is not a uid."""
    return text if isinstance(text, EntityUid) else EntityUid(text)


def _as_uids(texts: Iterable[str]) -> FrozenSet[EntityUid]:
    if isinstance(texts, str):
        raise TypeError(f"expected a list of texts, got one text: {texts!r}")
    return frozenset([text if type(text) is EntityUid else _as_uid(text) for text in texts])
