"""Bodies of policies and templates, encoded for the library: constraints, annotations and a clause."""
from __future__ import annotations

import enum
import itertools
from array import array
from typing import Iterable, List, Mapping, NamedTuple, Optional, Tuple, Union

from ._errors import NOT_A_NAME, NOT_A_UID
from ._expressions import Expr, Operand, Slot, expr_of
from ._library import list_of_texts
from ._uids import EntityUid, is_name, is_uid
from .values import Encoder


class ConstraintKind(enum.IntEnum):
    """The kind of a constraint. The kinds with a slot take the uid from the link of a template."""

    ANY = 0
    EQ = 1
    EQ_SLOT = 2
    IN = 3
    IN_SLOT = 4
    IS = 5
    IS_IN = 6
    IS_IN_SLOT = 7


_WITH_TYPE = (ConstraintKind.IS, ConstraintKind.IS_IN, ConstraintKind.IS_IN_SLOT)
_WITH_UID = (ConstraintKind.EQ, ConstraintKind.IN, ConstraintKind.IS_IN)


class Constraint(NamedTuple):
    """A constraint of a policy on the principal, the action or the resource. The default has no effect.

    >>> Constraint.is_in('Group::"staff"')
    Constraint(kind=<ConstraintKind.IN: 3>, type=None, uids=('Group::"staff"',))
    """

    kind: ConstraintKind = ConstraintKind.ANY
    type: Optional[str] = None
    uids: Tuple[str, ...] = ()

    @classmethod
    def any(cls) -> Constraint:
        """Returns the constraint that every entity meets."""
        return cls()

    @classmethod
    def is_eq(cls, uid: str) -> Constraint:
        """Returns the constraint `== uid`."""
        return cls(ConstraintKind.EQ, None, (uid,))

    @classmethod
    def is_eq_slot(cls) -> Constraint:
        """Returns the constraint `==` with the slot on the right."""
        return cls(ConstraintKind.EQ_SLOT)

    @classmethod
    def is_in(cls, *uids: str) -> Constraint:
        """Returns the constraint `in uid`. For an action it takes a list of uids: `in [uid, ..]`."""
        return cls(ConstraintKind.IN, None, uids)

    @classmethod
    def is_in_slot(cls) -> Constraint:
        """Returns the constraint `in` with the slot on the right."""
        return cls(ConstraintKind.IN_SLOT)

    @classmethod
    def is_entity_type(cls, type: str) -> Constraint:
        """Returns the constraint `is type`. Not for actions."""
        return cls(ConstraintKind.IS, type)

    @classmethod
    def is_entity_type_in(cls, type: str, uid: str) -> Constraint:
        """Returns the constraint `is type in uid`. Not for actions."""
        return cls(ConstraintKind.IS_IN, type, (uid,))

    @classmethod
    def is_entity_type_in_slot(cls, type: str) -> Constraint:
        """Returns the constraint `is type in` with the slot on the right. Not for actions."""
        return cls(ConstraintKind.IS_IN_SLOT, type)


ANY = Constraint()
# The effects with three constraints that every entity meets, encoded: the effect, and for each constraint its kind, the
# span of its uid and the span of its type.
_HEADS = [array("Q", [effect] + [0] * 15) for effect in (0, 1)]
# A list without items, with an address.
_EMPTY = array("Q", [0])
_EQ_SLOT = Constraint.is_eq_slot()
_KINDS = list(ConstraintKind)


def _constraint_of(value: Union[Constraint, Slot], variable: str) -> Constraint:
    """Returns a constraint unchanged. A slot of the variable becomes the constraint `==` with the slot on the right.

    Raises:
        TypeError: the value is neither a constraint nor a slot.
        ValueError: the slot is the slot of another variable.
    """
    if isinstance(value, Constraint):
        return value
    if isinstance(value, Slot):
        if value.name != "?" + variable:
            raise ValueError(f"the constraint on the {variable} cannot have the slot {value.name}")
        return _EQ_SLOT
    raise TypeError(
        f"the constraint on the {variable} must be a Constraint or a Slot, got {value!r}: write "
        f'Constraint.is_eq_slot() or Slot("?{variable}") for a slot, Constraint.is_eq(..) for a uid'
    )


def constraints_of(
    principal: Union[Constraint, Slot], action: Union[Constraint, Slot], resource: Union[Constraint, Slot]
) -> Tuple[Constraint, Constraint, Constraint]:
    """Returns the three constraints of a policy."""
    return (
        _constraint_of(principal, "principal"),
        _constraint_of(action, "action"),
        _constraint_of(resource, "resource"),
    )


def decode_constraint(kind: int, texts: List[str]) -> Constraint:
    """Decodes a constraint from its kind and the texts of its type and its uids."""
    if not kind:
        return ANY
    type_count = int(kind >= ConstraintKind.IS)
    uids = tuple([str.__new__(EntityUid, text) for text in texts[type_count:]])
    return Constraint(_KINDS[kind], texts[0] if type_count else None, uids)


class Body:
    """A body, encoded as one text and lists of spans in it. It must live until the call returns."""

    __slots__ = ("_encoder", "_text", "_lists", "_scope", "_annotations")

    def __init__(
        self,
        effect: int,
        scope: Tuple[Constraint, Constraint, Constraint],
        annotations: Mapping[str, str],
        when: Optional[Operand],
    ) -> None:
        principal, action, resource = scope
        self._encoder = encoder = Encoder()
        self._scope, self._annotations = scope, annotations
        if principal is action is resource is ANY:
            head = _HEADS[effect]
        else:
            constraints = self._encode(principal), self._encode(action, lists_uids=True), self._encode(resource)
            head = array("Q", [effect, *itertools.chain.from_iterable(constraints)])
        pairs = self._spans(itertools.chain.from_iterable(annotations.items())) if annotations else _EMPTY
        uids = self._spans(list_of_texts(action.uids)) if action.kind == ConstraintKind.IN else _EMPTY
        if when is not None:
            encoder.expr(when if isinstance(when, Expr) else expr_of(when))
        self._text = bytes(encoder.text)
        self._lists = head, pairs, uids, encoder.packed()

    def _spans(self, texts: Iterable[str]) -> array[int]:
        """Encodes texts, and returns their spans as a list with an address."""
        bounds = [bound for text in texts for bound in self._encoder.span(text)]
        return array("Q", bounds) if bounds else _EMPTY

    def _encode(self, constraint: Constraint, lists_uids: bool = False) -> List[int]:
        """Encodes a constraint as its kind, the span of its uid and the span of its type."""
        kind, type, uids = constraint
        if kind == ConstraintKind.ANY:
            return [0, 0, 0, 0, 0]
        expected_len = int(kind in _WITH_UID)
        is_list = lists_uids and kind == ConstraintKind.IN
        if not is_list and len(uids) != expected_len:
            raise ValueError(f"a constraint of kind {kind} needs {expected_len} uids, got {len(uids)}")
        uid_span = (0, 0) if is_list or not uids else self._encoder.span(uids[0])
        return [kind, *uid_span, *((0, 0) if type is None else self._encoder.span(type))]

    def arguments(self) -> Tuple[object, ...]:
        """Returns the arguments of the call that follow the handle and the id."""
        head, pairs, uids, nodes = self._lists
        pairs_at, pairs_len = pairs.buffer_info()
        uids_at, uids_len = uids.buffer_info()
        nodes_at, nodes_len = nodes.buffer_info()
        text = self._text
        return (
            *(text, len(text), head.buffer_info()[0]),
            *(pairs_at, pairs_len // 4, uids_at, uids_len // 2, nodes_at, nodes_len // 5),
        )

    def names_of(self, status: int) -> Tuple[str, ...]:
        """Returns the text of the body that is not what a status requires: a uid, a name, or UTF-8."""
        invalid: List[str] = []
        if status == NOT_A_UID:
            invalid = [uid for one in self._scope for uid in one.uids if not is_uid(uid)]
        if status == NOT_A_NAME:
            types = [one.type for one in self._scope if one.type is not None]
            invalid = [name for name in (*types, *self._annotations) if not is_name(name)]
        return tuple(invalid[:1]) or self._encoder.first_invalid(status)
