"""Uids of entities."""
from __future__ import annotations

import ctypes
from typing import Any, Iterable, List, Tuple

from ._errors import NOT_A_NAME, NOT_A_UID, NOT_UTF8, raise_error
from ._library import encode, encode_with_length, function

_check, _make, _parts = function("uid_check"), function("uid_make"), function("uid_parts")


def is_uid(text: str) -> bool:
    """Returns whether the text is a uid.

    Raises:
        TypeError: the text is not a `str`.
        OutOfMemory: an allocation failed.

    >>> is_uid('User::"alice"'), is_uid("alice")
    (True, False)
    """
    status = _check(*encode_with_length(text))
    if status and status != NOT_A_UID:
        raise_error(status, text)
    return not status


def is_name(text: str) -> bool:
    """Returns whether the text is the name of a type or a function."""
    length = ctypes.c_size_t(0)
    return bool(_make(*encode_with_length(text), b"", 0, b"", 0, ctypes.byref(length)) != NOT_A_NAME)


class EntityUid(str):
    """The uid of an entity: a text like `A::B::"c"`. It is a `str` and can be used as one.

    `EntityUid(text)` checks a text; `EntityUid.make` builds a uid from a type and an id.

    Raises:
        NotAUid: the text is not a uid.
        TypeError: the text is not a `str`.

    >>> uid = EntityUid('User::"alice"')
    >>> uid, uid.type, uid.id
    (EntityUid('User::"alice"'), 'User', 'alice')
    """

    __slots__ = ()

    def __new__(cls, text: str) -> EntityUid:
        if not is_uid(text):
            raise_error(NOT_A_UID, text)
        return str.__new__(cls, text)

    def __repr__(self) -> str:
        return f"EntityUid({str.__repr__(self)})"

    @classmethod
    def make(cls, type: str, id: str) -> EntityUid:
        """Builds the uid with a type, like `A::B`, and an id. The id is any text, not escaped.

        Raises:
            NotAName: the type is not a name.
            NotUtf8: the id has a lone surrogate.
            TypeError: the type or the id is not a `str`.
            OutOfMemory: an allocation failed.

        >>> print(EntityUid.make("User", "O'Brien"))
        User::"O\\'Brien"
        """
        (type_bytes, type_length), (id_bytes, id_length) = encode_with_length(type), encode_with_length(id)
        capacity, length = type_length + 2 * id_length + 16, ctypes.c_size_t(0)
        while True:
            buffer = ctypes.create_string_buffer(capacity)
            status = _make(type_bytes, type_length, id_bytes, id_length, buffer, capacity, ctypes.byref(length))
            if status:
                raise_error(status, id if status == NOT_UTF8 else type)
            if length.value <= capacity:
                return str.__new__(cls, buffer.raw[: length.value].decode())
            capacity = length.value

    @staticmethod
    def escape(id: str) -> str:
        """Escapes an id for use between the quotes of a uid.

        Raises:
            NotUtf8: the id has a lone surrogate.
            TypeError: the id is not a `str`.

        >>> EntityUid.escape("tab\\t")
        'tab\\\\t'
        """
        return EntityUid.make("A", id)[4:-1]

    @property
    def parts(self) -> Tuple[str, str]:
        """Returns the type and the id. The id is not escaped.

        >>> EntityUid('A::B::"c"').parts
        ('A::B', 'c')
        """
        text = encode(self)
        buffer, type_length, length = ctypes.create_string_buffer(len(text)), ctypes.c_size_t(0), ctypes.c_size_t(0)
        status = _parts(text, len(text), buffer, len(text), ctypes.byref(type_length), ctypes.byref(length))
        if status:
            raise_error(status)
        return buffer.raw[: type_length.value].decode(), buffer.raw[type_length.value : length.value].decode()

    @property
    def type(self) -> str:
        """Returns the type, like `A::B`."""
        return self.parts[0]

    @property
    def id(self) -> str:
        """Returns the id, not escaped."""
        return self.parts[1]

    def __reduce__(self) -> Tuple[Any, ...]:
        return EntityUid, (str(self),)


def unchecked_uids(texts: Iterable[str]) -> List[EntityUid]:
    """Returns texts that the library wrote as `EntityUid`s, without a check."""
    new, uid_type = str.__new__, EntityUid
    return [new(uid_type, text) for text in texts]


def order_key(uid: EntityUid) -> Tuple[str, List[str], str]:
    """Returns a key by which uids sort as in the library: by the last part of their types, by the parts before it, and
    by id.
    """
    type_name, id = uid.parts
    *path, last = type_name.split("::")
    return last, path, id
