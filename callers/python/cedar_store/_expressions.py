"""Immutable expressions. Two expressions are equal if all their parts are equal."""
from __future__ import annotations

from typing import Any, List, NoReturn, Optional, Tuple, Union

from ._uids import EntityUid

Literal = Union[bool, int, str]


class Expr:
    """An expression. `~` negates it, and `&` builds a conjunction. `eq`, `is_in` and `is_type` build tests of it.

    `==` compares two expressions in Python. An expression has no truth value.
    """

    __slots__ = ("_data", "operands", "_hash")
    _data: Tuple[Any, ...]
    operands: Tuple[Expr, ...]
    _hash: int

    def __init__(self, *_: Any, **__: Any) -> None:
        raise TypeError("Expr is abstract: create one of its subclasses")

    def _set_fields(self, data: Tuple[Any, ...], *operands: Expr) -> None:
        """Sets the fields: the expression's own data, and its operands."""
        _set_data(self, data)
        _set_operands(self, operands)

    def __setattr__(self, _: str, __: object) -> NoReturn:
        raise AttributeError("an expression is immutable")

    def __delattr__(self, _: str) -> NoReturn:
        raise AttributeError("an expression is immutable")

    def __invert__(self) -> Expr:
        return Not(self)

    def __and__(self, other: Operand) -> Expr:
        return And(self, other)

    def __rand__(self, other: Operand) -> Expr:
        return And(other, self)

    def eq(self, other: Operand) -> Expr:
        """Builds the test whether both expressions are equal.

        Raises:
            TypeError: the operand is not an expression or a literal.
        """
        return Eq(self, other)

    def is_in(self, other: Operand) -> Expr:
        """Builds the test whether an entity is, or is a descendant of, another entity or an element of a set.

        Raises:
            TypeError: the operand is not an expression or a literal.
        """
        return In(self, other)

    def is_type(self, type: str) -> Expr:
        """Builds the test whether the expression is an entity of a type.

        Raises:
            TypeError: the type is not a `str`.
        """
        return Is(self, type)

    def __bool__(self) -> bool:
        raise TypeError("an expression has no truth value: combine expressions with & and ~, compare with eq")

    def __hash__(self) -> int:
        pending: List[Expr] = [self]
        while pending:
            expr = pending[-1]
            missing = [operand for operand in expr.operands if not hasattr(operand, "_hash")]
            if missing:
                pending += missing
                continue
            pending.pop()
            operand_hashes = tuple([operand._hash for operand in expr.operands])
            object.__setattr__(expr, "_hash", hash((type(expr).__name__, expr._data, operand_hashes)))
        return self._hash

    def __eq__(self, other: object) -> bool:
        if not isinstance(other, Expr):
            return NotImplemented
        pairs = [(self, other)]
        while pairs:
            left, right = pairs.pop()
            if left is right:
                continue
            if type(left) is not type(right) or left._data != right._data:
                return False
            if len(left.operands) != len(right.operands):
                return False
            pairs += zip(left.operands, right.operands)
        return True

    def __reduce__(self) -> Tuple[Any, ...]:
        from .values import expr_from_nodes, expr_to_nodes

        text, nodes = expr_to_nodes(self)
        return expr_from_nodes, (text, nodes)

    def __str__(self) -> str:
        """Returns the text of the expression, for display."""
        parents_first: List[Expr] = []
        pending: List[Expr] = [self]
        while pending:
            expr = pending.pop()
            parents_first.append(expr)
            pending += expr.operands
        texts: List[str] = []
        for expr in reversed(parents_first):
            first = len(texts) - len(expr.operands)
            texts[first:] = [expr._text(texts[first:])]
        return texts[0]

    def __repr__(self) -> str:
        return f"<{type(self).__name__} {self}>"

    def _text(self, operands: List[str]) -> str:
        """Returns the text of the expression, from the texts of its operands."""
        raise NotImplementedError


# The setters of the slots, which are faster than `object.__setattr__`.
_set_data: Any = vars(Expr)["_data"].__set__
_set_operands: Any = vars(Expr)["operands"].__set__

Operand = Union[Expr, bool, int, EntityUid]


def expr_of(operand: Operand) -> Expr:
    """Returns an expression unchanged, and a `bool`, an `int` or a uid as a literal.

    Raises:
        TypeError: the operand is a plain `str`, which could mean a uid or a string, or is no operand at all.
    """
    if isinstance(operand, Expr):
        return operand
    if isinstance(operand, str) and not isinstance(operand, EntityUid):
        raise TypeError(
            f"{operand!r} could be an entity or a string: write EntityUid({operand!r}) for the entity, "
            f"or Lit({operand!r}) for the string"
        )
    return Lit(operand)


def _quoted(text: str) -> str:
    return '"' + EntityUid.escape(text) + '"'


class Lit(Expr):
    """A literal: a `bool`, an `int`, a text or a uid."""

    __slots__ = ()

    def __init__(self, value: Literal) -> None:
        kind = type(value)
        if kind not in (EntityUid, str, int, bool):
            value = _plain_literal(value)
            kind = type(value)
        _set_data(self, (kind, value))
        _set_operands(self, ())

    @property
    def value(self) -> Literal:
        """Returns the value of the literal."""
        value: Literal = self._data[1]
        return value

    def _text(self, operands: List[str]) -> str:
        if isinstance(self.value, bool):
            return "true" if self.value else "false"
        if isinstance(self.value, EntityUid) or not isinstance(self.value, str):
            return str(self.value)
        return _quoted(self.value)


def _plain_literal(value: object) -> Literal:
    """Returns an instance of a subclass of `int`, `str` or `EntityUid` as an instance of that class."""
    if isinstance(value, EntityUid):
        return str.__new__(EntityUid, str(value))
    if isinstance(value, str):
        return str(value)
    if isinstance(value, int):
        return int(value)
    raise TypeError(f"a {type(value).__name__} is not a literal: {value!r}")


class _NamedExpr(Expr):
    """An expression with a name from a fixed list."""

    __slots__ = ()
    _names: Tuple[str, ...] = ()

    def __init__(self, name: str) -> None:
        if name not in self._names:
            raise ValueError(f"{name!r} is not a valid {type(self).__name__}: expected one of {', '.join(self._names)}")
        self._set_fields((name,))

    @classmethod
    def from_number(cls, number: int) -> Any:
        """Returns the expression with this number. Raises `ValueError` if there is none."""
        if not 0 <= number < len(cls._names):
            raise ValueError(f"no {cls.__name__} has the number {number}")
        return cls(cls._names[number])

    @property
    def name(self) -> str:
        name: str = self._data[0]
        return name

    @property
    def number(self) -> int:
        """Returns the number of the expression in the library."""
        return self._names.index(self.name)

    def _text(self, operands: List[str]) -> str:
        return self.name


class Var(_NamedExpr):
    """A variable of a request: `principal`, `action`, `resource` or `context`."""

    __slots__ = ()
    _names = ("principal", "action", "resource", "context")


class Slot(_NamedExpr):
    """A slot of a template: `?principal`, `?action` or `?resource`."""

    __slots__ = ()
    _names = ("?principal", "?action", "?resource")


class UnknownExpr(Expr):
    """An unknown value with a name. It has a type if the type of the entity is known."""

    __slots__ = ()

    def __init__(self, name: str, type: Optional[str] = None) -> None:
        self._set_fields((_checked_text(name),), *([] if type is None else [Lit(_checked_text(type))]))

    @property
    def name(self) -> str:
        name: str = self._data[0]
        return name

    @property
    def type(self) -> Optional[str]:
        for operand in self.operands:
            if isinstance(operand, Lit):
                return str(operand.value)
        return None

    def _text(self, operands: List[str]) -> str:
        return f"unknown({_quoted(self.name)})"


class SetOf(Expr):
    """A set of expressions, in their order."""

    __slots__ = ()

    def __init__(self, *elements: Operand) -> None:
        self._set_fields((), *map(expr_of, elements))

    def _text(self, operands: List[str]) -> str:
        return "[" + ", ".join(operands) + "]"


class Call(Expr):
    """A call of an extension function. A plain text among its arguments is a string."""

    __slots__ = ()

    def __init__(self, function: str, *arguments: Union[Operand, str]) -> None:
        operands = [Lit(one) if isinstance(one, str) else expr_of(one) for one in arguments]
        self._set_fields((_checked_text(function),), *operands)

    @property
    def function(self) -> str:
        function: str = self._data[0]
        return function

    def _text(self, operands: List[str]) -> str:
        return f"{self.function}({', '.join(operands)})"


class Not(Expr):
    """A negation."""

    __slots__ = ()

    def __init__(self, operand: Operand) -> None:
        _set_data(self, ())
        _set_operands(self, (expr_of(operand),))

    def _text(self, operands: List[str]) -> str:
        return f"!({operands[0]})"


class _BinaryExpr(Expr):
    """An expression with two operands."""

    __slots__ = ()
    _operator = ""

    def __init__(self, left: Operand, right: Operand) -> None:
        left_expr = left if isinstance(left, Expr) else expr_of(left)
        right_expr = right if isinstance(right, Expr) else expr_of(right)
        _set_data(self, ())
        _set_operands(self, (left_expr, right_expr))

    def _text(self, operands: List[str]) -> str:
        return f"({operands[0]} {self._operator} {operands[1]})"


class And(_BinaryExpr):
    """The conjunction of two expressions."""

    __slots__ = ()
    _operator = "&&"


class Eq(_BinaryExpr):
    """The test whether two expressions are equal."""

    __slots__ = ()
    _operator = "=="


class In(_BinaryExpr):
    """The test whether the left entity is, or is a descendant of, the right entity or an element of the right set."""

    __slots__ = ()
    _operator = "in"


class Is(Expr):
    """The test whether an expression is an entity of a type."""

    __slots__ = ()

    def __init__(self, operand: Operand, type: str) -> None:
        self._set_fields((_checked_text(type),), expr_of(operand))

    @property
    def type(self) -> str:
        type_name: str = self._data[0]
        return type_name

    def _text(self, operands: List[str]) -> str:
        return f"({operands[0]} is {self.type})"


def _checked_text(text: str) -> str:
    if not isinstance(text, str):
        raise TypeError(f"expected a str, got a {type(text).__name__}")
    return str(text)


PRINCIPAL, ACTION, RESOURCE, CONTEXT = [Var(name) for name in Var._names]
