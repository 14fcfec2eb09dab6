"""The base of the exceptions, and the exception for a status. `_statuses` has the exceptions by meaning."""
from __future__ import annotations

import enum
from typing import TYPE_CHECKING, Any, NoReturn, Optional, Tuple, Type

if TYPE_CHECKING:
    from ._uids import EntityUid

CLOSED, BAD_ARGUMENT, NOT_A_UID, NOT_UTF8, UNKNOWN_ENTITY, NOT_A_NAME = 2, 3, 4, 5, 6, 27


class CedarError(Exception):
    """The base of all exceptions that report an error of the library.

    `CedarError(reason, text)` creates the exception by meaning of that reason, for example a `Cycle`. The text names
    the items concerned. If an item of a list of uids is not a uid, `index` is its index in the list.
    """

    reason: str
    index: Optional[int]
    _names: Optional[Tuple[str, ...]]

    def __new__(
        cls, reason: str = "", text: str = "", index: Optional[int] = None, names: Optional[Tuple[str, ...]] = None
    ) -> CedarError:
        if cls is CedarError:
            from ._statuses import STATUSES

            cls = {known.reason: known.exception for known in STATUSES.values()}.get(reason, cls)
        new: CedarError = Exception.__new__(cls, text)  # type: ignore[call-arg]
        return new

    def __init__(
        self, reason: str = "", text: str = "", index: Optional[int] = None, names: Optional[Tuple[str, ...]] = None
    ) -> None:
        super().__init__(text)
        self.reason = reason
        self.index = index
        self._names = names

    def __str__(self) -> str:
        return str(self.args[0])

    def _status(self) -> int:
        from ._statuses import STATUSES

        return next((number for number, known in STATUSES.items() if known.reason == self.reason), 0)

    @property
    def names(self) -> Tuple[str, ...]:
        """Returns the items that the text names, in the order of the text: uids, an id, a key or a text.

        For a `SlotMismatch` they are slots: first the unbound ones, then the bound ones that the template does not
        have.
        """
        if self._names is None:
            from ._library import names_in_error_text

            self._names = tuple(names_in_error_text(self._status(), str(self)))
        return self._names

    @property
    def uids(self) -> Tuple[EntityUid, ...]:
        """Returns the uids that the text names, in the order of the text.

        For a `MissingAncestor` they are the entity, its ancestor and the missing ancestor.
        """
        from ._statuses import STATUSES
        from ._uids import unchecked_uids

        known = STATUSES.get(self._status())
        return tuple(unchecked_uids(self.names if known and known.names_uids else ()))

    def _name(self, index: int) -> str:
        """Returns the name at an index, or an empty text if the exception was created without it."""
        return self.names[index] if index < len(self.names) else ""

    def _uid(self, index: int) -> EntityUid:
        from ._uids import unchecked_uids

        return unchecked_uids([self._name(index)])[0]

    def __reduce__(self) -> Tuple[Any, ...]:
        return type(self), (self.reason, str(self), self.index, self._names), self.__dict__.copy()


def has_error_text(status: int) -> bool:
    """Returns whether the library has a text for errors with this status."""
    from ._statuses import STATUSES

    return status in STATUSES and STATUSES[status].has_text


def raise_error(status: int, *names: str, text: str = "", index: Optional[int] = None) -> NoReturn:
    """Raises the exception for a status other than 0. The text comes from the library if it has one.

    Otherwise it is the text of the status, followed by the names.
    """
    from ._statuses import STATUSES

    known = STATUSES.get(status)
    if known is None:
        raise CedarError(f"status {status}", f"status {status}")
    if text:
        raise known.exception(known.reason, text, index)
    if status == CLOSED:
        raise known.exception(known.reason, f"cannot use {names[0]}: it was closed", index, names)
    raise known.exception(known.reason, " ".join((known.text, *names)), index, names)


def enum_number(value: object, enum_type: Type[enum.IntEnum]) -> int:
    """Returns a mode or an effect as its number. Raises `ValueError` for a `bool`, a `float` or any other number."""
    if type(value) is enum_type or (type(value) is int and value in list(enum_type)):
        return int(value)
    raise ValueError(f"{value!r} is not a valid {enum_type.__name__}")
