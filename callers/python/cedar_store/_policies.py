"""Policy sets."""
from __future__ import annotations

import ctypes
import enum
from typing import Any, Dict, FrozenSet, Iterator, List, Mapping, NamedTuple, Optional, Tuple, Union

from ._bodies import ANY, Body, Constraint, constraints_of, decode_constraint
from ._diff import PoliciesDiff, diff_policies
from ._errors import NOT_A_NAME, NOT_A_UID, NOT_UTF8, enum_number, raise_error
from ._expressions import Expr, Operand, Slot
from ._groups import both_locked
from ._handle import HandleOwner
from ._library import (
    SIZES,
    UidList,
    copying_functions,
    encode,
    encode_with_length,
    function,
    functions,
    quick_function,
)
from ._uids import EntityUid, is_uid
from .values import NODE_SIZE, expr_from_nodes, node_fields

_add_static, _add_template = function("policies_add_static"), function("policies_add_template")
_link, _unlink = function("policies_link"), function("policies_unlink")
_remove_static, _remove_template = function("policies_remove_static"), function("policies_remove_template")
_merge, _merge_deep_copy, _ids = [function("policies_" + name) for name in ("merge", "merge_deep_copy", "ids")]
_get, _effect, _slots = [quick_function("policies_" + name) for name in ("get", "effect", "slots")]
_annotation, _annotations = quick_function("policies_annotation"), quick_function("policies_annotations")
_env, _template_id, _linked = [quick_function("policies_" + name) for name in ("env", "template_id", "linked")]
_text, _policy_text, _template_text = [
    function("policies_" + name) for name in ("text", "policy_text", "template_text")
]
_unknown_entities, _validate = function("policies_unknown_entities"), function("policies_validate")
_naming, _templates_naming = function("policies_naming"), function("policies_templates_naming")
_add_static_with, _add_template_with = [function(f"policies_add_{name}_with") for name in ("static", "template")]
_scope, _clause, _condition = [quick_function("policies_" + name) for name in ("scope", "clause", "condition")]
_result_nodes = quick_function("policies_result_nodes", ctypes.c_size_t)


class Effect(enum.IntEnum):
    """Whether a policy permits or forbids."""

    PERMIT = 0
    FORBID = 1


class Bound(enum.IntEnum):
    """The kind of item that an id of a set is bound to."""

    STATIC = 1
    LINK = 2
    TEMPLATE = 3


class Env(NamedTuple):
    """The uids that the slots of a policy are bound to. A slot that the policy does not have is None."""

    principal: Optional[EntityUid]
    action: Optional[EntityUid]
    resource: Optional[EntityUid]


_SLOTS = {1: "principal", 2: "action", 4: "resource"}
_EFFECTS = list(Effect)
# The number of nodes that fit into the first buffer for a clause.
_NODES = 64


def _id_arguments(id: str) -> Tuple[bytes, Any]:
    text = encode(id)
    return text, SIZES[len(text)]


class Policies(HandleOwner):
    """A policy set. A call that raises an exception leaves it unchanged.

    Any thread may use a set. Calls on a set and its copies happen one after another. Iteration, `len` and `in` work on
    the ids of the policies, which are static policies and links.

    Raises:
        Closed: the set was closed (every method).
        OutOfMemory: an allocation failed (every method).
        TypeError: an argument has the wrong type, for example an id that is not a `str`.
        NotUtf8: an id contains a lone surrogate.

    >>> policies = Policies()
    >>> policies.add_static("all")
    >>> policies, "all" in policies, list(policies)
    (<Policies: 1 policies, 0 templates>, True, ['all'])
    """

    __slots__ = ()
    _noun = "a policy set"
    _new, _free, _copy, _deep_copy, _equal = functions("policies", "new", "free", "copy", "deep_copy", "equal")
    _error_text, _result, _result_spans = copying_functions("policies")

    def _add(self, function: Any, id: str, body: Body) -> None:
        def names(status: int) -> Tuple[str, ...]:
            return body.names_of(status) or ((id,) if status == NOT_UTF8 else ())

        self._call(function, *encode_with_length(id), *body.arguments(), names=names)

    def add_static(
        self,
        id: str,
        effect: int = Effect.PERMIT,
        *,
        principal: Constraint = ANY,
        action: Constraint = ANY,
        resource: Constraint = ANY,
        annotations: Mapping[str, str] = {},
        when: Optional[Operand] = None,
    ) -> None:
        """Adds a static policy. Without further arguments it has no constraints. `when` is its clause.

        Raises:
            ValueError: the effect is invalid, or a constraint has the wrong number of uids.
            TypeError: a constraint is no `Constraint`, or `when` is a plain `str`.
            IdInUse: the id is bound already.
            NotStatic: a constraint or the clause has a slot.
            NotAUid, NotAName, NotUtf8, TooDeep: a part of the body is invalid.

        >>> policies = Policies()
        >>> policies.add_static("locked", Effect.FORBID, resource=Constraint.is_in('Folder::"locked"'))
        >>> policies.effect("locked")
        <Effect.FORBID: 1>
        """
        effect_number = enum_number(effect, Effect)
        if principal is action is resource is ANY and not annotations and when is None:
            return self._call(_add_static, *encode_with_length(id), effect_number, names=(id,))
        scope = constraints_of(principal, action, resource)
        self._add(_add_static_with, id, Body(effect_number, scope, annotations, when))

    def add_template(
        self,
        id: str,
        effect: int = Effect.PERMIT,
        *,
        principal: Union[Constraint, Slot] = ANY,
        action: Union[Constraint, Slot] = ANY,
        resource: Union[Constraint, Slot] = ANY,
        annotations: Mapping[str, str] = {},
        when: Optional[Operand] = None,
    ) -> None:
        """Adds a template. A `Slot` as a constraint is short for `Constraint.is_eq_slot()`.

        Raises:
            ValueError: the effect is invalid, a slot belongs to another variable, or a constraint has the wrong number
                of uids.
            TypeError: a constraint is neither a `Constraint` nor a `Slot`, or `when` is a plain `str`.
            IdInUse: the id is bound already.
            NotAUid, NotAName, NotUtf8, TooDeep: a part of the body is invalid.

        >>> policies = Policies()
        >>> policies.add_template("readers", principal=Slot("?principal"), resource=Constraint.is_in_slot())
        >>> sorted(policies.slots("readers"))
        ['principal', 'resource']
        """
        effect_number = enum_number(effect, Effect)
        scope = constraints_of(principal, action, resource)
        self._add(_add_template_with, id, Body(effect_number, scope, annotations, when))

    def link(
        self,
        template: str,
        id: str,
        *,
        principal: Optional[str] = None,
        action: Optional[str] = None,
        resource: Optional[str] = None,
    ) -> None:
        """Links a template under the new id, with these uids in its slots.

        Raises:
            NotAUid: a value is not a uid.
            UnknownTemplate: there is no template with this id.
            SlotMismatch: a slot of the template is unbound, or a slot that it does not have is bound.
            NotAnAction: the value of the action slot is not an action.
            IdInUse: the new id is bound already.

        >>> policies = Policies()
        >>> policies.add_template("readers", principal=Slot("?principal"))
        >>> policies.link("readers", "alice reads", principal='User::"alice"')
        >>> policies.env("alice reads").principal
        EntityUid('User::"alice"')
        """
        values = (principal, action, resource)
        if "" in values:
            raise_error(NOT_A_UID, "", index=values.index(""))
        uids = UidList(["" if value is None else value for value in values])
        ids = *encode_with_length(template), *encode_with_length(id)

        def names(status: int) -> Tuple[str, ...]:
            if status == NOT_A_UID:
                index = [at for at, value in enumerate(values) if value is not None and not is_uid(value)][0]
                raise_error(status, uids.text_at(index), index=index)
            return (template, id) if status == NOT_UTF8 else ()

        self._call(_link, *ids, *uids.arguments(), names=names)

    def unlink(self, id: str) -> None:
        """Removes the link with this id.

        Raises:
            UnknownPolicy: nothing is bound to the id.
            NotALink: another item is bound to the id.

        >>> Policies().unlink("p")
        Traceback (most recent call last):
        cedar_store.UnknownPolicy: no link p
        """
        self._call(_unlink, *encode_with_length(id), names=(id,))

    def remove_static(self, id: str) -> None:
        """Removes the static policy with this id.

        Raises:
            UnknownPolicy: no policy has the id.
            NotStatic: the policy is a link.

        >>> policies = Policies()
        >>> policies.add_static("all")
        >>> policies.remove_static("all")
        >>> len(policies)
        0
        """
        self._call(_remove_static, *encode_with_length(id), names=(id,))

    def remove_template(self, id: str) -> None:
        """Removes the template with this id.

        Raises:
            UnknownTemplate: nothing is bound to the id.
            NotATemplate: another item is bound to the id.
            TemplateHasLinks: the template has links.

        >>> policies = Policies()
        >>> policies.add_template("readers")
        >>> policies.remove_template("readers")
        """
        self._call(_remove_template, *encode_with_length(id), names=(id,))

    def merge(self, other: Policies, rename: bool = False) -> Dict[str, str]:
        """Adds the policies, templates and links of another set. Returns the renamed ids, each with its new id.

        An id that the two sets bind to different items is a conflict. With `rename`, the item of the other set gets a
        new id. The sets share nothing afterwards, unless one is a copy of the other.

        Raises:
            IdInUse: there is a conflict and `rename` is False. The error names the first such id.
            Closed: one of the sets was closed.
            TypeError: `other` is not a `Policies`.

        >>> policies, other = Policies(), Policies()
        >>> policies.add_static("p")
        >>> other.add_static("p", Effect.FORBID)
        >>> policies.merge(other, rename=True)
        {'p': 'policy0'}
        """
        if not isinstance(other, Policies):
            raise TypeError(f"expected a policy set, got a {type(other).__name__}")
        if other is self:
            other = self.copy()
        function = _merge if self._group is other._group else _merge_deep_copy
        texts: List[str] = self._call_with_other(function, other, bool(rename), read=self._result_texts)
        return dict(zip(texts[::2], texts[1::2]))

    def bodies(self) -> List[str]:
        """Returns the ids of the static policies and the templates, in insertion order.

        >>> policies = Policies()
        >>> policies.add_template("readers")
        >>> policies.bodies(), policies.policies()
        (['readers'], [])
        """
        return self._call_for_texts(_ids, 0)

    def policies(self) -> List[str]:
        """Returns the ids of the static policies and the links, in insertion order.

        >>> policies = Policies()
        >>> policies.add_static("all")
        >>> policies.policies()
        ['all']
        """
        return self._call_for_texts(_ids, 1)

    def templates(self) -> List[str]:
        """Returns the ids of the templates, without the static policies, in insertion order.

        >>> policies = Policies()
        >>> policies.add_template("readers")
        >>> policies.templates()
        ['readers']
        """
        with self._group.lock:
            static = set(self.policies())
            return [id for id in self.bodies() if id not in static]

    def __iter__(self) -> Iterator[str]:
        """Iterates over the ids that the policies have now. Later changes of the set do not affect the iterator."""
        return iter(self.policies())

    def __len__(self) -> int:
        """Returns the number of static policies and links."""
        return len(self.policies())

    def __contains__(self, id: object) -> bool:
        """Returns whether a static policy or a link has this id."""
        return isinstance(id, str) and self.get(id) in (Bound.STATIC, Bound.LINK)

    def __bool__(self) -> bool:
        """Returns True, also for an empty set."""
        return True

    def __repr__(self) -> str:
        """Returns the numbers of policies and templates. Raises no exception."""
        if not self._handle.is_open:
            return "<Policies, closed>"
        with self._group.lock:
            policies, templates = len(self), len(self.templates())
        return f"<Policies: {policies} policies, {templates} templates>"

    def _number_of(self, function: Any, id: str) -> int:
        return self._call_for_number(function, *_id_arguments(id), names=(id,))

    def _texts_of(self, function: Any, id: str) -> List[str]:
        return self._call_for_texts(function, *_id_arguments(id), names=(id,))

    def get(self, id: str) -> Optional[Bound]:
        """Returns the kind of item that the id is bound to, or None.

        >>> policies = Policies()
        >>> policies.add_static("all")
        >>> policies.get("all"), policies.get("none")
        (<Bound.STATIC: 1>, None)
        """
        try:
            number = self._number_of(_get, id)
        except ValueError as error:
            if getattr(error, "reason", None) == "not UTF-8":
                return None
            raise
        return Bound(number) if number else None

    def effect(self, id: str) -> Effect:
        """Returns the effect of the item with this id. A link has the effect of its template.

        Raises:
            UnknownPolicy: nothing is bound to the id.

        >>> Policies().effect("p")
        Traceback (most recent call last):
        cedar_store.UnknownPolicy: no body p
        """
        return _EFFECTS[self._number_of(_effect, id)]

    def slots(self, id: str) -> FrozenSet[str]:
        """Returns the slots of a template: a subset of `principal`, `action` and `resource`. A static policy has no
        slots.

        Raises:
            UnknownPolicy: the id is not bound to a template or a static policy.

        >>> policies = Policies()
        >>> policies.add_template("readers", action=Slot("?action"))
        >>> policies.slots("readers")
        frozenset({'action'})
        """
        slots = self._number_of(_slots, id)
        return frozenset(name for bit, name in _SLOTS.items() if slots & bit)

    def annotation(self, id: str, key: str) -> Optional[str]:
        """Returns the value of an annotation, or None. A link has the annotations of its template.

        Raises:
            UnknownPolicy: nothing is bound to the id.
            NotAName: the key is not an identifier.

        >>> policies = Policies()
        >>> policies.add_static("all", annotations={"reason": "a test"})
        >>> policies.annotation("all", "reason"), policies.annotation("all", "owner")
        ('a test', None)
        """
        exists = ctypes.c_bool(False)
        texts = self._call_for_texts(
            *(_annotation, *_id_arguments(id), *_id_arguments(key), ctypes.byref(exists)),
            names=lambda status: (key if status == NOT_A_NAME else id,),
        )
        return "".join(texts) if exists.value else None

    def annotations(self, id: str) -> Dict[str, str]:
        """Returns all annotations, in the order of the bytes of their keys. A link has the annotations of its template.

        Raises:
            UnknownPolicy: nothing is bound to the id.

        >>> policies = Policies()
        >>> policies.add_static("all", annotations={"reason": "a test"})
        >>> policies.annotations("all")
        {'reason': 'a test'}
        """
        texts = self._texts_of(_annotations, id)
        return dict(zip(texts[::2], texts[1::2]))

    def _constraint(self, id: str, scope_index: int) -> Constraint:
        kind = ctypes.c_uint32(0)
        texts = self._call_and_read(
            *(_scope, *_id_arguments(id), ctypes.c_uint32(scope_index), ctypes.byref(kind)),
            names=(id,),
            read=lambda: self._result_texts() if kind.value else [],
        )
        return decode_constraint(kind.value, texts)

    def principal_constraint(self, id: str) -> Constraint:
        """Returns the constraint on the principal. In a link the slot is filled.

        Raises:
            UnknownPolicy: nothing is bound to the id.

        >>> policies = Policies()
        >>> policies.add_static("p", principal=Constraint.is_entity_type("User"))
        >>> policies.principal_constraint("p").type
        'User'
        """
        return self._constraint(id, 0)

    def action_constraint(self, id: str) -> Constraint:
        """Returns the constraint on the action. In a link the slot is filled.

        Raises:
            UnknownPolicy: nothing is bound to the id.

        >>> policies = Policies()
        >>> policies.add_static("p", action=Constraint.is_eq('Action::"view"'))
        >>> policies.action_constraint("p").uids
        (EntityUid('Action::"view"'),)
        """
        return self._constraint(id, 1)

    def resource_constraint(self, id: str) -> Constraint:
        """Returns the constraint on the resource. In a link the slot is filled.

        Raises:
            UnknownPolicy: nothing is bound to the id.

        >>> policies = Policies()
        >>> policies.add_static("p")
        >>> policies.resource_constraint("p") == Constraint.any()
        True
        """
        return self._constraint(id, 2)

    def _encoding_of(
        self, function: Any, id: str, *arguments: Any, exists: Optional[Any] = None
    ) -> Optional[Tuple[bytes, List[Tuple[int, int, int, int, int]]]]:
        """Calls a library function that stores an expression as its result. Returns its text and its nodes, which are
        the same for equal expressions.
        """

        def read() -> Optional[Tuple[bytes, bytes]]:
            if exists is not None and not exists.value:
                return None
            buffer = (ctypes.c_char * (NODE_SIZE * _NODES))()
            count = _result_nodes(self._pointer, SIZES[0], buffer, SIZES[_NODES])
            if count > _NODES:
                buffer = (ctypes.c_char * (NODE_SIZE * count))()
                _result_nodes(self._pointer, SIZES[0], buffer, SIZES[count])
            return self._result_bytes(), bytes(buffer)[: NODE_SIZE * count]

        result = self._call_and_read(function, *_id_arguments(id), *arguments, names=(id,), read=read)
        return None if result is None else (result[0], node_fields(result[1]))

    def _expr_of(self, function: Any, id: str, *arguments: Any, exists: Optional[Any] = None) -> Optional[Expr]:
        """Calls a library function that stores an expression as its result, and returns it."""
        result = self._encoding_of(function, id, *arguments, exists=exists)
        return None if result is None else expr_from_nodes(*result)

    def non_scope_constraints(self, id: str) -> Optional[Expr]:
        """Returns the clause, or None. A link has the clause of its template, with its slots not filled.

        Raises:
            UnknownPolicy: nothing is bound to the id.

        >>> from cedar_store.values import PRINCIPAL
        >>> policies = Policies()
        >>> policies.add_static("p", when=PRINCIPAL.is_type("User"))
        >>> print(policies.non_scope_constraints("p"))
        (principal is User)
        """
        exists = ctypes.c_bool(False)
        return self._expr_of(_clause, id, ctypes.byref(exists), exists=exists)

    def condition(self, id: str) -> Expr:
        """Returns the constraints and the clause as one expression. A link has the condition of its template, with its
        slots not filled.

        Raises:
            UnknownPolicy: nothing is bound to the id.

        >>> policies = Policies()
        >>> policies.add_static("p")
        >>> print(policies.condition("p"))
        (true && (true && (true && true)))
        """
        condition = self._expr_of(_condition, id)
        assert condition is not None
        return condition

    def env(self, id: str) -> Env:
        """Returns the uids that the slots of a link are bound to. A static policy binds none.

        Raises:
            UnknownPolicy: the id is not bound to a link or a static policy.

        >>> policies = Policies()
        >>> policies.add_static("p")
        >>> policies.env("p")
        Env(principal=None, action=None, resource=None)
        """
        new, uid_type = str.__new__, EntityUid
        return Env(*[new(uid_type, uid) if uid else None for uid in self._texts_of(_env, id)])

    def template_id(self, id: str) -> str:
        """Returns the id of the template of a link. For a static policy it is the policy's own id.

        Raises:
            UnknownPolicy: the id is not bound to a link or a static policy.

        >>> policies = Policies()
        >>> policies.add_template("all")
        >>> policies.link("all", "p")
        >>> policies.template_id("p")
        'all'
        """
        return "".join(self._texts_of(_template_id, id))

    def linked(self, id: str) -> List[str]:
        """Returns the ids of the links of a template, in insertion order. For a static policy it is the policy's own
        id.

        Raises:
            UnknownPolicy: the id is not bound to a template or a static policy.

        >>> policies = Policies()
        >>> policies.add_template("all")
        >>> policies.link("all", "p")
        >>> policies.linked("all")
        ['p']
        """
        return self._texts_of(_linked, id)

    def unknown_entities(self, id: str) -> List[EntityUid]:
        """Returns the uids of the unknown entities in the condition of a policy, in ascending order and without
        duplicates.

        An unknown with a type counts if its name is the text of a uid.

        Raises:
            UnknownPolicy: the id is not bound to a link or a static policy.

        >>> from cedar_store.values import UnknownExpr
        >>> policies = Policies()
        >>> policies.add_static("p", when=UnknownExpr('User::"alice"', "User"))
        >>> policies.unknown_entities("p")
        [EntityUid('User::"alice"')]
        """
        return [EntityUid(uid) for uid in self._call_for_texts(_unknown_entities, *encode_with_length(id), names=(id,))]

    def naming(self, uid: str) -> List[str]:
        """Returns the ids of the static policies and links that name a uid, in insertion order.

        A policy names a uid if its constraints, its bindings or its clause contain it. Unknowns are not looked at: see
        `unknown_entities`. So before an entity is removed, you know which policies will mean something else.

        Raises:
            NotAUid: the text is not a uid.

        >>> policies = Policies()
        >>> policies.add_static("p", principal=Constraint.is_in('Group::"staff"'))
        >>> policies.naming('Group::"staff"'), policies.naming('Group::"board"')
        (['p'], [])
        """
        return self._call_for_texts(_naming, *encode_with_length(uid), names=(uid,))

    def templates_naming(self, uid: str) -> List[str]:
        """Returns the ids of the templates with slots that name a uid in their constraints or their clause, with or
        without links, in insertion order.

        Raises:
            NotAUid: the text is not a uid.

        >>> policies = Policies()
        >>> policies.add_template("t", principal=Slot("?principal"), resource=Constraint.is_in('Folder::"reports"'))
        >>> policies.templates_naming('Folder::"reports"'), policies.naming('Folder::"reports"')
        (['t'], [])
        """
        return self._call_for_texts(_templates_naming, *encode_with_length(uid), names=(uid,))

    def _content_of(self, id: str) -> Tuple[Any, ...]:
        """Returns the kind and the content of an item, which are the same for equal items. A link has the id of its
        template and its bindings.
        """
        kind = self.get(id)
        if kind is Bound.LINK:
            return kind, self.template_id(id), self.env(id)
        exists = ctypes.c_bool(False)
        clause = self._encoding_of(_clause, id, ctypes.byref(exists), exists=exists)
        scope = [self._constraint(id, index) for index in range(3)]
        return kind, self.effect(id), self.annotations(id), scope, clause

    def diff(self, other: Policies) -> PoliciesDiff:
        """Returns what differs between this set and another one, which is taken as the later one: see `PoliciesDiff`.

        A link is compared by the id of its template and by its bindings. The order of the policies is not compared. The
        comparison is Python over proved calls that read both sets. It is tested, not proved.

        Raises:
            TypeError: `other` is not a `Policies`.

        >>> policies, other = Policies(), Policies()
        >>> policies.add_static("p")
        >>> other.add_static("p", Effect.FORBID)
        >>> print(policies.diff(other))
          static p
        -   permit(
        +   forbid(
              principal,
              action,
              resource
            );
        """
        if not isinstance(other, Policies):
            raise TypeError(f"expected a policy set, got a {type(other).__name__}")
        with both_locked(self._group, other._group):
            return diff_policies(self, other)

    def validate(self) -> None:
        """Checks the set, and raises the first fault. The error names the id of a link or of a body.

        Links are checked first, then each body in insertion order.

        Raises:
            LinkWithoutSlots: the template of a link has no slots.
            SlotInClause: the clause of a template has a slot.
            NotActions: the constraint on the action names a uid that is not an action.
            UnknownFunction: the clause calls an unknown function.

        >>> policies = Policies()
        >>> policies.add_static("p", action=Constraint.is_eq('User::"alice"'))
        >>> policies.validate()
        Traceback (most recent call last):
        cedar_store.NotActions: uid of no action in p
        """
        self._call(_validate)

    def policy_text(self, id: str) -> str:
        """Returns the text of a static policy or a link, for display.

        Raises:
            UnknownPolicy: the id is not bound to a static policy or a link.

        >>> policies = Policies()
        >>> policies.add_static("p")
        >>> print(policies.policy_text("p"))
        permit(
          principal,
          action,
          resource
        );
        """
        return "".join(self._call_for_texts(_policy_text, *encode_with_length(id), names=(id,)))

    def template_text(self, id: str) -> str:
        """Returns the text of a template or a static policy, for display.

        Raises:
            UnknownPolicy: the id is not bound to a template or a static policy.

        >>> policies = Policies()
        >>> policies.add_template("t")
        >>> print(policies.template_text("t"))
        permit(
          principal,
          action,
          resource
        );
        """
        return "".join(self._call_for_texts(_template_text, *encode_with_length(id), names=(id,)))

    def __str__(self) -> str:
        """Returns the text of the set, for display."""
        return "".join(self._call_for_texts(_text))
