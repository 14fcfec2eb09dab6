"""Values and expressions of the Cedar language, and the nodes that encode them for the library.

A value is a `bool`, an `int` of 64 bits, a `str`, an `EntityUid`, an `Extension`, a set or a record. A set is given as
a set, `list` or `tuple`, and a record as any mapping or dataclass.

When a value is read, a record is a `Record`, a subclass of `dict`. A set is a `frozenset`. If Python takes two of its
members as equal, like true and 1, or a uid and its text, it is a `CedarSet`. `same` does not take them as equal.

The classes and operators here build expressions from values and other expressions:

    >>> from cedar_store import EntityUid
    >>> from cedar_store.values import CONTEXT, PRINCIPAL
    >>> print(PRINCIPAL.is_in(EntityUid('Group::"staff"')) & ~CONTEXT.eq(1))
    ((principal in Group::"staff") && !((context == 1)))

Nodes refer to one text. Each node follows its operands. `to_nodes` and `from_nodes` encode and decode attributes and
tags, which are values or residual expressions. `expr_to_nodes` and `expr_from_nodes` do this for expressions. None of
them recurses, so the depth of a term is limited only by the library.
"""
from __future__ import annotations

import dataclasses
import struct
from array import array
from collections.abc import Mapping as AnyMapping
from collections.abc import Set as AnySet
from typing import (
    TYPE_CHECKING,
    AbstractSet,
    Any,
    Dict,
    FrozenSet,
    Iterable,
    Iterator,
    List,
    Mapping,
    NamedTuple,
    NoReturn,
    Optional,
    Sequence,
    Tuple,
    Type,
    Union,
)

from ._expressions import (
    ACTION,
    CONTEXT,
    PRINCIPAL,
    RESOURCE,
    And,
    Call,
    Eq,
    Expr,
    In,
    Is,
    Lit,
    Not,
    SetOf,
    Slot,
    UnknownExpr,
    Var,
    _set_data,
    _set_operands,
)
from ._errors import NOT_A_UID, NOT_UTF8
from ._library import encode
from ._uids import EntityUid, is_name, is_uid

__all__ = [
    "ACTION",
    "And",
    "CONTEXT",
    "Call",
    "CedarSet",
    "Eq",
    "Expr",
    "Extension",
    "In",
    "Is",
    "Lit",
    "Node",
    "Not",
    "PRINCIPAL",
    "RESOURCE",
    "ReadTerm",
    "Record",
    "SetOf",
    "Slot",
    "Term",
    "UnknownExpr",
    "Value",
    "Var",
    "expr_from_nodes",
    "expr_to_nodes",
    "from_nodes",
    "same",
    "to_nodes",
]

_BOOL, _LONG, _TEXT, _UID, _SET, _RECORD, _CALL, _VAR = range(8)
_SLOT, _UNKNOWN, _NOT, _AND, _EQ, _IN, _IS, _RESIDUAL = range(8, 16)


@dataclasses.dataclass(frozen=True)
class Extension:
    """A value of an extension type: the name of its function, like `ip`, and the text argument.

    >>> Extension("decimal", "1.5")
    Extension(function='decimal', text='1.5')
    """

    function: str
    text: str


class Record(Dict[str, "Term"]):
    """A record: an immutable `dict`, so that it can be a member of a set. The attributes and the tags of an entity are
    records too, and may contain expressions.

    >>> Record(age=41)["age"], Record(a=1) in {Record(a=1)}
    (41, True)
    """

    __slots__ = ("_hash",)
    _hash: int

    def __hash__(self) -> int:  # type: ignore[override]
        try:
            return self._hash
        except AttributeError:
            self._hash = hash(frozenset(self.items()))
            return self._hash

    def _raise_immutable(self, *_: Any, **__: Any) -> NoReturn:
        raise TypeError("a record is immutable")

    __setitem__ = __delitem__ = __ior__ = _raise_immutable  # type: ignore[assignment]
    clear = pop = popitem = setdefault = update = _raise_immutable  # type: ignore[assignment]

    def __reduce__(self) -> Tuple[Any, ...]:
        return Record, (dict(self),)


if TYPE_CHECKING:
    _AnySetOfValues = AbstractSet["Value"]
else:
    _AnySetOfValues = AnySet


class CedarSet(_AnySetOfValues):
    """An immutable set whose members are compared as in the Cedar language.

    True differs from 1, and a uid from its text.

    A set that is read is a `frozenset` unless Python takes two of its members as equal.

    >>> len(CedarSet([True, 1, 1])), 1 in CedarSet([True]), CedarSet([1, 2]) == {2, 1}
    (2, False, True)
    """

    __slots__ = ("_members", "_own_hash")

    def __init__(self, members: Iterable[Value] = ()) -> None:
        # Nodes have each member once, and reading them makes every member hashable.
        kept: Any = from_nodes(*to_nodes(list(members)))
        self._set_members(kept)

    def _set_members(self, members: Iterable[Value]) -> None:
        """Sets members that differ. Sets the hash too: a hash of the members on demand could recurse deeply."""
        self._members = tuple(members)
        in_python = frozenset(self._members)
        self._own_hash = hash(in_python) if len(in_python) == len(self._members) else len(self._members)

    @classmethod
    def _of_distinct(cls, members: Iterable[Value]) -> CedarSet:
        new: CedarSet = object.__new__(cls)
        new._set_members(members)
        return new

    def __contains__(self, value: object) -> bool:
        try:
            return any(same(member, value) for member in self._members)  # type: ignore[arg-type]
        except (TypeError, ValueError):
            return False

    def __iter__(self) -> Iterator[Value]:
        return iter(self._members)

    def __len__(self) -> int:
        return len(self._members)

    def __eq__(self, other: object) -> bool:
        if not isinstance(other, AnySet):
            return NotImplemented
        return same(self, other)

    def __hash__(self) -> int:
        return self._own_hash

    def __repr__(self) -> str:
        return f"CedarSet({list(self._members)!r})"

    def __reduce__(self) -> Tuple[Any, ...]:
        return CedarSet, (self._members,)


Value = Union[bool, int, str, Extension, Record, AbstractSet["Value"], Sequence["Value"], Mapping[str, "Value"]]
# An attribute or a tag: a value or a residual expression.
Term = Union[Value, Expr]
# An attribute or a tag that is read: its types are few, so that `isinstance` narrows it.
ReadTerm = Union[bool, int, str, EntityUid, Extension, FrozenSet[Any], CedarSet, Record, Expr]


class Node(NamedTuple):
    """A node: its kind, the number of its operands, the span of its text, and its number."""

    kind: int
    len: int = 0
    start: int = 0
    end: int = 0
    number: int = 0


# The fields of a node, as a `Node` or a tuple.
NodeFields = Union[Node, Tuple[int, int, int, int, int]]

_NODE = struct.Struct("=I4xQQQq")
NODE_SIZE = _NODE.size


def node_fields(encoded: bytes) -> List[Tuple[int, int, int, int, int]]:
    """Decodes nodes from their bytes in memory, as tuples."""
    return list(_NODE.iter_unpack(encoded))  # type: ignore[arg-type]


def unpack_nodes(encoded: bytes) -> List[Node]:
    """Decodes nodes from their bytes in memory."""
    return list(map(Node._make, _NODE.iter_unpack(encoded)))


_LEAST, _MOST = -(1 << 63), (1 << 63) - 1


class Encoder:
    """An encoder of terms: one text, in which each string occurs once, and the nodes of all terms.

    `fields` has five numbers for each node, in the order of a node in memory.
    """

    __slots__ = ("text", "fields", "_spans")

    def __init__(self, text: bytes = b"") -> None:
        self.text = bytearray(text)
        self.fields: List[int] = []
        self._spans: Dict[str, Tuple[int, int]] = {}

    def span(self, text: str) -> Tuple[int, int]:
        """Returns the start and the end of a string in the text. Adds the string if it is new."""
        span = self._spans.get(text)
        if span is None:
            start = len(self.text)
            self.text += encode(text)
            span = self._spans[text] = start, len(self.text)
        return span

    def first_invalid(self, status: int) -> Tuple[str, ...]:
        """Returns the first text that is not what a status requires: a uid, a name, or UTF-8."""
        if status == NOT_UTF8:
            return tuple(text for text in self._spans if not _is_utf8(text))[:1]
        kinds, is_valid = ((_UID,), is_uid) if status == NOT_A_UID else ((_CALL, _IS), is_name)
        text = bytes(self.text)
        for kind, _, start, end, _ in zip(*[iter(self.fields)] * 5):
            if kind in kinds and not is_valid(text[start:end].decode("utf-8", "replace")):
                return (text[start:end].decode("utf-8", "replace"),)
        return ()

    def packed(self) -> "array[int]":
        """Returns the nodes as they are in memory. The array has an address even if there are no nodes."""
        return array("q", self.fields or (0,))

    @property
    def nodes(self) -> List[Node]:
        """Returns the nodes."""
        return unpack_nodes(array("q", self.fields).tobytes())

    def _add_reversed(self, fields: List[int]) -> Tuple[int, int]:
        first = len(self.fields) // 5
        fields.reverse()
        self.fields += fields
        return first, len(self.fields) // 5

    def term(self, term: Term) -> Tuple[int, int]:
        """Encodes a value or a residual expression. Returns the range of its nodes.

        Raises:
            TypeError: the term is not a value.
            ValueError: a number does not fit into 64 bits.
        """
        if isinstance(term, Expr):
            return self._add_reversed([0, 0, 0, 1, _RESIDUAL, *self._expr_fields(term)])
        fields = self._value_fields(term)
        fields.reverse()
        first = len(self.fields) // 5
        self.fields += fields
        return first, first + len(fields) // 5

    def expr(self, expr: Expr) -> Tuple[int, int]:
        """Encodes an expression. Returns the range of its nodes.

        Raises:
            ValueError: a number does not fit into 64 bits.
        """
        return self._add_reversed(self._expr_fields(expr))

    def _text_fields(self, kind: int, text: str, count: int = 0) -> Tuple[int, int, int, int, int]:
        start, end = self.span(text)
        return 0, end, start, count, kind

    def _literal_fields(self, literal: Union[bool, int, str]) -> Tuple[int, int, int, int, int]:
        if isinstance(literal, str):
            return self._text_fields(_UID if isinstance(literal, EntityUid) else _TEXT, literal)
        if isinstance(literal, bool):
            return int(literal), 0, 0, 0, _BOOL
        if not _LEAST <= literal <= _MOST:
            raise ValueError(f"a number must fit into 64 bits, got {literal}")
        return int(literal), 0, 0, 0, _LONG

    def _value_fields(self, root: Value) -> List[int]:
        """Returns the fields of the nodes of a value, from the last to the first."""
        fields: List[int] = []
        pending: List[Any] = [root]
        known_span, new_span = self._spans.get, self.span
        while pending:
            value = pending.pop()
            kind = type(value)
            if kind is str or kind is EntityUid:
                start, end = known_span(value) or new_span(value)
                fields += (0, end, start, 0, _TEXT if kind is str else _UID)
            elif kind is int and _LEAST <= value <= _MOST:
                fields += (value, 0, 0, 0, _LONG)
            elif kind is bool:
                fields += (value + 0, 0, 0, 0, _BOOL)
            elif kind is dict or kind is Record:
                fields += (0, 0, 0, len(value), _RECORD)
                for key, member in value.items():
                    pending += (key if type(key) is str else _checked_key(key), member)
            else:
                fields += self._other_value_fields(value, pending)
        return fields

    def _other_value_fields(self, value: Any, pending: List[Any]) -> Tuple[int, int, int, int, int]:
        """Returns the fields of a value of another type, and adds its members to the pending values."""
        if isinstance(value, (str, int)):
            return self._literal_fields(value)
        if isinstance(value, Extension):
            pending.append(str(value.text))
            return self._text_fields(_CALL, value.function, 1)
        if dataclasses.is_dataclass(value) and not isinstance(value, type):
            value = fields_of(value)
        if isinstance(value, AnyMapping):
            for key, member in value.items():
                pending += (_checked_key(key), member)
            return 0, 0, 0, len(value), _RECORD
        if isinstance(value, (list, tuple, AnySet)):
            pending += value
            return 0, 0, 0, len(value), _SET
        raise TypeError(f"a {type(value).__name__} is not a value: {value!r}")

    def _expr_fields(self, root: Expr) -> List[int]:
        """Returns the fields of the nodes of an expression, from the last to the first."""
        fields: List[int] = []
        pending: List[Expr] = [root]
        known_span, new_span = self._spans.get, self.span
        while pending:
            expr = pending.pop()
            kind = type(expr)
            if kind in _OPERATOR_FIELDS:
                fields += _OPERATOR_FIELDS[kind]
                pending += expr.operands
            elif kind is Lit:
                literal_kind, literal = expr._data
                if literal_kind is EntityUid:
                    start, end = known_span(literal) or new_span(literal)
                    fields += (0, end, start, 0, _UID)
                elif literal_kind is int and _LEAST <= literal <= _MOST:
                    fields += (literal, 0, 0, 0, _LONG)
                else:
                    fields += self._literal_fields(literal)
            elif kind is Var:
                fields += _VAR_FIELDS[expr._data[0]]
            else:
                fields += self._other_fields(expr)
                pending += expr.operands
        return fields

    def _other_fields(self, expr: Expr) -> Tuple[int, int, int, int, int]:
        if isinstance(expr, Slot):
            return expr.number, 0, 0, 0, _SLOT
        if isinstance(expr, SetOf):
            return 0, 0, 0, len(expr.operands), _SET
        if isinstance(expr, UnknownExpr):
            return self._text_fields(_UNKNOWN, expr.name, len(expr.operands))
        if isinstance(expr, Call):
            return self._text_fields(_CALL, expr.function, len(expr.operands))
        if isinstance(expr, Is):
            return self._text_fields(_IS, expr.type)
        raise TypeError(f"a {type(expr).__name__} is not an expression of the package")


def _is_utf8(text: str) -> bool:
    try:
        text.encode()
        return True
    except UnicodeEncodeError:
        return False


def fields_of(instance: Any) -> Dict[str, Any]:
    """Returns the fields of a dataclass instance by their names."""
    return {field.name: getattr(instance, field.name) for field in dataclasses.fields(instance)}


_OPERATOR_KINDS: Dict[Type[Expr], int] = {Not: _NOT, And: _AND, Eq: _EQ, In: _IN}
# The fields of the nodes of operators and variables, which are the same in each expression.
_OPERATOR_FIELDS = {kind: (0, 0, 0, 0, operator) for kind, operator in _OPERATOR_KINDS.items()}
_VAR_FIELDS = {name: (number, 0, 0, 0, _VAR) for number, name in enumerate(Var._names)}


def _checked_key(key: object) -> str:
    if not isinstance(key, str):
        raise TypeError(f"expected a str as a key, got a {type(key).__name__}")
    return str(key)


def to_nodes(term: Term) -> Tuple[bytes, List[Node]]:
    """Encodes a value or a residual expression as a text and nodes.

    Raises:
        TypeError: the term is not a value.
        ValueError: a number does not fit into 64 bits.

    >>> to_nodes(7)
    (b'', [Node(kind=1, len=0, start=0, end=0, number=7)])
    """
    encoder = Encoder()
    encoder.term(term)
    return bytes(encoder.text), encoder.nodes


def expr_to_nodes(expr: Expr) -> Tuple[bytes, List[Node]]:
    """Encodes an expression as a text and nodes.

    Raises:
        ValueError: a number does not fit into 64 bits.

    >>> expr_to_nodes(PRINCIPAL)
    (b'', [Node(kind=7, len=0, start=0, end=0, number=0)])
    """
    encoder = Encoder()
    encoder.expr(expr)
    return bytes(encoder.text), encoder.nodes


def from_nodes(text: bytes, nodes: Sequence[NodeFields]) -> ReadTerm:
    """Decodes a value or a residual expression from a text and nodes.

    Raises:
        ValueError: the nodes are invalid.

    >>> from_nodes(*to_nodes({"ages": [7, 41]})) == {"ages": {41, 7}}
    True
    """
    nodes = list(nodes)
    if nodes and len(nodes[-1]) == 5 and nodes[-1][0] == _RESIDUAL and nodes[-1][1] == 1:
        return expr_from_nodes(text, nodes[:-1])
    decoder = _Decoder(text)
    for node in nodes:
        decoder.decode(node)
    value: ReadTerm = decoder.only_value()[0]
    return value


def same(one: Value, other: Value) -> bool:
    """Returns whether two values are equal in the Cedar language. True differs from 1, and a uid from its text.

    Raises:
        TypeError: an argument is not a value.
        ValueError: a number does not fit into 64 bits.

    >>> same([1, 2, 1], {2, 1}), same(True, 1)
    (True, False)
    """
    decoder, encoder = _Decoder(b""), Encoder()
    ranges = [encoder.term(one), encoder.term(other)]
    decoder.set_text(bytes(encoder.text))
    nodes, numbers = encoder.nodes, []
    for start, end in ranges:
        for node in nodes[start:end]:
            decoder.decode(node, builds_value=False)
        numbers.append(decoder.only_value()[1])
        decoder.stack.clear()
    return numbers[0] == numbers[1]


class _Decoder:
    """A decoder of values. Two values have the same number exactly if they are equal."""

    __slots__ = ("text", "ascii", "stack", "_numbers")

    def __init__(self, text: bytes) -> None:
        self.set_text(text)
        self.stack: List[Tuple[Any, int]] = []
        self._numbers: Dict[object, int] = {}

    def set_text(self, text: bytes) -> None:
        """Sets the text of the nodes."""
        self.text = text
        self.ascii = _ascii_or_none(text)

    def only_value(self) -> Tuple[Any, int]:
        """Returns the decoded value and its number. Raises `ValueError` if there is not exactly one."""
        if len(self.stack) != 1:
            raise ValueError("the nodes do not encode exactly one value")
        return self.stack[0]

    def decode(self, node: NodeFields, builds_value: bool = True) -> None:
        """Decodes a node from the values before it. Without `builds_value`, only numbers are computed, no values."""
        kind, count, start, end, number = node
        value: Any = None
        content: object
        if kind <= _UID:
            value = content = _decode_literal(self.text, self.ascii, kind, start, end, number)
        elif kind == _CALL and count == 1:
            ((argument, _),) = self._pop(1)
            if not isinstance(argument, str) or isinstance(argument, EntityUid):
                raise ValueError("an extension function takes one text")
            value = Extension(_node_text(self.text, self.ascii, start, end), argument)
            content = value.function, value.text
        elif kind == _SET:
            members = {number: member for member, number in self._pop(count)}
            content = frozenset(members)
            if builds_value:
                value = frozenset(members.values())
                if len(value) < len(members):
                    value = CedarSet._of_distinct(members.values())
        elif kind == _RECORD:
            fields = self._pop_fields(count)
            content = frozenset((key, number) for key, (_, number) in fields.items())
            if builds_value:
                value = Record({key: member for key, (member, _) in fields.items()})
                hash(value)
        else:
            raise ValueError(f"a value cannot contain a node of kind {kind}")
        self.stack.append((value, self._numbers.setdefault((kind, content), len(self._numbers))))

    def _pop(self, count: int) -> List[Tuple[Any, int]]:
        first = len(self.stack) - count
        if first < 0:
            raise ValueError("a node has too few operands before it")
        operands = self.stack[first:]
        del self.stack[first:]
        return operands

    def _pop_fields(self, count: int) -> Dict[str, Tuple[Any, int]]:
        operands = self._pop(2 * count)
        fields = {}
        for (key, _), member in zip(operands[::2], operands[1::2]):
            if not isinstance(key, str) or isinstance(key, EntityUid):
                raise ValueError("the key of a record must be a text")
            fields[key] = member
        return fields


def _ascii_or_none(text: bytes) -> Optional[str]:
    """Returns an ASCII text as a `str`, in which a span has the same numbers. Returns None for another text.

    Raises:
        TypeError: the text is not `bytes`.
    """
    if not isinstance(text, bytes):
        raise TypeError(f"expected bytes as the text of nodes, got a {type(text).__name__}: {text!r}")
    return text.decode("ascii") if text.isascii() else None


def _node_text(text: bytes, ascii_text: Optional[str], start: int, end: int) -> str:
    if not start <= end <= len(text):
        raise ValueError("a span is not within its text")
    return text[start:end].decode() if ascii_text is None else ascii_text[start:end]


def _decode_literal(
    text: bytes, ascii_text: Optional[str], kind: int, start: int, end: int, number: int
) -> Union[bool, int, str]:
    if kind == _BOOL:
        if number not in (0, 1):
            raise ValueError("a Boolean must be 0 or 1")
        return bool(number)
    if kind == _LONG:
        return number
    literal = _node_text(text, ascii_text, start, end)
    return str.__new__(EntityUid, literal) if kind == _UID else literal


def expr_from_nodes(text: bytes, nodes: Iterable[NodeFields]) -> Expr:
    """Decodes an expression from a text and nodes.

    Raises:
        ValueError: the nodes are invalid.

    >>> expr_from_nodes(*expr_to_nodes(PRINCIPAL.is_type("User")))
    <Is (principal is User)>
    """
    stack: List[Expr] = []
    ascii_text = _ascii_or_none(text)
    for kind, count, start, end, number in nodes:
        if kind <= _UID:
            literal = _decode_literal(text, ascii_text, kind, start, end, number)
            expr: Expr = _new_expr(Lit)
            _set_data(expr, (_LITERAL_TYPES[kind], literal))
            _set_operands(expr, ())
        elif kind == _VAR or kind == _SLOT:
            named = _VARS if kind == _VAR else _SLOTS
            if not 0 <= number < len(named):
                raise ValueError(f"no variable or slot has the number {number}")
            expr = named[number]
        elif kind in _OPERATORS:
            operator, arity = _OPERATORS[kind]
            expr = _new_expr(operator)
            _set_data(expr, ())
            _set_operands(expr, tuple(_pop_exprs(stack, arity)))
        else:
            expr = _decode_other(kind, count, _node_text(text, ascii_text, start, end), stack)
        stack.append(expr)
    if len(stack) != 1:
        raise ValueError("the nodes do not encode exactly one expression")
    return stack[0]


_new_expr: Any = object.__new__
_LITERAL_TYPES = (bool, int, str, EntityUid)
_VARS: List[Expr] = [Var(name) for name in Var._names]
_SLOTS: List[Expr] = [Slot(name) for name in Slot._names]
_OPERATORS: Dict[int, Tuple[Type[Expr], int]] = {
    kind: (operator, 1 if operator is Not else 2) for operator, kind in _OPERATOR_KINDS.items()
}


def _decode_other(kind: int, count: int, text: str, stack: List[Expr]) -> Expr:
    """Decodes an expression with a text or a number of operands, and pops its operands from the stack."""
    if kind == _SET:
        return SetOf(*_pop_exprs(stack, count))
    if kind == _CALL:
        return Call(text, *_pop_exprs(stack, count))
    if kind == _UNKNOWN and count == 0:
        return UnknownExpr(text)
    if kind == _UNKNOWN and count == 1:
        (type,) = _pop_exprs(stack, 1)
        if not isinstance(type, Lit) or not isinstance(type.value, str):
            raise ValueError("the type of an unknown must be a text")
        return UnknownExpr(text, type.value)
    if kind == _IS:
        (operand,) = _pop_exprs(stack, 1)
        return Is(operand, text)
    raise ValueError(f"an expression cannot contain a node of kind {kind}")


def _pop_exprs(stack: List[Expr], count: int) -> List[Expr]:
    first = len(stack) - count
    if first < 0:
        raise ValueError("a node has too few operands before it")
    operands = stack[first:]
    del stack[first:]
    return operands
