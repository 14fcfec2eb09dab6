"""The base of stores and policy sets: an object with a handle of the library, in a group."""
from __future__ import annotations

import ctypes
from typing import Any, Callable, Dict, List, NoReturn, Optional, Tuple, Type, TypeVar, Union

from ._errors import CLOSED, NOT_A_UID, has_error_text, raise_error
from ._groups import Group, run_on_both
from ._library import SIZES, Handle, UidList, key_numbers

_FIRST_ITEM = SIZES[0]
_Self = TypeVar("_Self", bound="HandleOwner")
_Result = TypeVar("_Result")
# The items that an exception names, or a function that returns them for a status.
_Names = Union[Tuple[str, ...], Callable[[int], Tuple[str, ...]]]


class HandleOwner:
    """The base of stores and policy sets: an object with a handle, which any thread may use.

    A call with several steps, for example one that reads a result, has the lock of the group during all of them.
    """

    __slots__ = ("_handle", "_pointer", "_group", "__weakref__")
    _noun = ""
    _new: Any
    _free: Any
    _copy: Any
    _deep_copy: Any
    _equal: Any
    _result: Any
    _result_spans: Any
    _error_text: Any
    _handle: Handle
    _pointer: Any
    _group: Group

    def __new__(cls, *_: Any, **__: Any) -> Any:
        return cls._closed(Group())

    @classmethod
    def _closed(cls: Type[_Self], group: Group) -> _Self:
        """Returns an object of a group, with a closed handle."""
        new = object.__new__(cls)
        new._handle = handle = Handle()
        new._pointer = ctypes.byref(handle)
        new._group = group
        return new

    def __init__(self, *, key: Optional[bytes] = None) -> None:
        numbers = key_numbers(key)
        self._call(self._new, *numbers)

    def _step(
        self, function: Any, arguments: Tuple[Any, ...], names: _Names, uids: Optional[UidList], read: Any
    ) -> Any:
        """Calls a library function that returns a status, and then a function that reads the result.

        Raises an exception if the status is not 0. `names` are the items that an exception without a text of the
        library names.
        """
        status = function(self._pointer, *arguments)
        if status:
            self._raise_error(status, *(names(status) if callable(names) else names), uids=uids)
        return read() if read else None

    def _call(self, function: Any, *arguments: Any, names: _Names = ()) -> None:
        """Calls a library function that returns a status. Raises an exception if it is not 0."""
        self._group.run(self._step, function, arguments, names, None, None)

    def _call_with_uids(self, function: Any, uids: UidList, *arguments: Any) -> None:
        """Calls a library function on a list of uids. If a text is not a uid, the exception has the text and its index.
        """
        self._group.run(self._step, function, arguments, (), uids, None)

    def _call_for_texts(self, function: Any, *arguments: Any, names: _Names = ()) -> List[str]:
        """Calls a library function that stores texts as its result, and returns them."""
        texts: List[str] = self._group.run(self._step, function, arguments, names, None, self._result_texts)
        return texts

    def _call_and_read(self, function: Any, *arguments: Any, names: _Names, read: Callable[[], _Result]) -> _Result:
        """Calls a library function, and then a function that reads the result. Returns what that returns."""
        result: _Result = self._group.run(self._step, function, arguments, names, None, read)
        return result

    def _call_with_other(
        self: _Self, function: Any, other: _Self, *arguments: Any, names: _Names = (), read: Any = None
    ) -> Any:
        """Calls a library function on two handles, and then a function that reads the result."""
        arguments = (*arguments[:-1], other._pointer, arguments[-1])
        return run_on_both(self._group, other._group, self._step, function, arguments, names, None, read)

    def _call_for_number(self, function: Any, *arguments: Any, names: Tuple[str, ...] = ()) -> int:
        """Calls a library function that writes a number of 32 bits, and returns it."""
        number = ctypes.c_uint32(0)
        with self._group.lock:
            status = function(self._pointer, *arguments, ctypes.byref(number))
        if status:
            self._raise_error(status, *names)
        return number.value

    def _call_for_bool(self, function: Any, *arguments: Any, names: Tuple[str, ...] = ()) -> bool:
        """Calls a library function that writes a Boolean, and returns it."""
        result = ctypes.c_bool(False)
        with self._group.lock:
            status = function(self._pointer, *arguments, ctypes.byref(result))
        if status:
            self._raise_error(status, *names)
        return result.value

    def _raise_error(self, status: int, *names: str, uids: Optional[UidList] = None) -> NoReturn:
        """Raises the exception for a status other than 0, with the text of the library if it has one.

        Otherwise the text has the names. If a text of a list is not a uid, the names are that text.
        """
        if status == CLOSED:
            raise_error(status, self._noun)
        if status == NOT_A_UID and uids is not None:
            index = uids.first_invalid()
            if index is not None:
                raise_error(status, uids.text_at(index), index=index)
        if not has_error_text(status):
            raise_error(status, *(names or (uids.names_of(status) if uids else ())))
        length = self._error_text(self._pointer, b"", SIZES[0])
        buffer = ctypes.create_string_buffer(max(length, 1))
        self._error_text(self._pointer, buffer, SIZES[length])
        raise_error(status, text=buffer.raw[:length].decode("utf-8", "replace"))

    def _result_bytes(self) -> bytes:
        """Returns the bytes of the texts of the last result. The caller has the lock."""
        buffer: Any = self._group.text_buffer
        length = self._result(self._pointer, _FIRST_ITEM, buffer, SIZES[len(buffer)])
        if length > len(buffer):
            buffer = (ctypes.c_char * length)()
            self._result(self._pointer, _FIRST_ITEM, buffer, SIZES[length])
        encoded: bytes = buffer[:length]
        return encoded

    def _result_texts(self) -> List[str]:
        """Returns the texts of the last result. The caller has the lock."""
        encoded = self._result_bytes()
        buffer: Any = self._group.span_buffer
        capacity = len(buffer) // 2
        count = self._result_spans(self._pointer, _FIRST_ITEM, buffer, SIZES[capacity])
        if count > capacity:
            buffer = (ctypes.c_size_t * (2 * count))()
            self._result_spans(self._pointer, _FIRST_ITEM, buffer, SIZES[count])
        bounds = buffer[: 2 * count]
        text = encoded.decode("utf-8", "replace")
        if len(text) == len(encoded):
            return [text[start:end] for start, end in zip(bounds[::2], bounds[1::2])]
        return [encoded[start:end].decode("utf-8", "replace") for start, end in zip(bounds[::2], bounds[1::2])]

    def _fill(self: _Self, new: _Self, function: Any, *arguments: Any, uids: Optional[UidList] = None) -> _Self:
        """Calls a library function that fills another handle from this one. Returns the object of that handle."""
        self._group.run(self._step, function, (new._pointer, *arguments), (), uids, None)
        return new

    def copy(self: _Self) -> _Self:
        """Returns a copy with the same key. It shares its contents with the original, and also its lock.

        Raises:
            Closed: it was closed.
            OutOfMemory: an allocation failed.
        """
        return self._fill(self._closed(self._group), self._copy)

    def deep_copy(self: _Self) -> _Self:
        """Returns a deep copy with the same key. It shares nothing with the original.

        Calls on the copy and on the original run in parallel on two threads.

        Raises:
            Closed: it was closed.
            OutOfMemory: an allocation failed.
        """
        return self._fill(self._closed(Group()), self._deep_copy)

    __copy__ = copy

    def __deepcopy__(self: _Self, _: Dict[int, Any]) -> _Self:
        return self.deep_copy()

    def __reduce__(self) -> Tuple[Any, ...]:
        raise TypeError(f"{self._noun} cannot be pickled: no call lists all its contents. Pickle its input instead")

    def __eq__(self, other: object) -> bool:
        if not isinstance(other, HandleOwner) or other._noun != self._noun:
            return NotImplemented
        if self is other:
            return True
        result = ctypes.c_bool(False)
        self._call_with_other(self._equal, other, ctypes.byref(result))
        return result.value

    __hash__ = None  # type: ignore[assignment]

    def close(self) -> None:
        """Frees the contents. Closing again has no effect.

        Later calls raise `Closed`, except that the `len` of a closed store is 0.
        """
        self._group.run(self._free, self._pointer)

    def __enter__(self: _Self) -> _Self:
        return self

    def __exit__(self, *_: object) -> None:
        self.close()

    def __del__(self) -> None:
        try:
            group, handle = self._group, self._handle
        except AttributeError:
            return
        if handle.is_open:
            group.drop(self._pointer, handle, self._free)
