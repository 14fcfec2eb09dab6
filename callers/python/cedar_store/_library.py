"""The functions of `cedar.h`, and the encoding of lists for them.

Quick calls keep the lock of the Python interpreter and convert no arguments. Only the functions here make them, with
bytes, numbers of the right size and addresses.
"""
from __future__ import annotations

import ctypes
import os
import struct
from array import array
from itertools import accumulate
from typing import Any, Dict, Iterable, List, Optional, Tuple

from ._errors import NOT_A_UID, raise_error


class Handle(ctypes.Structure):
    """The handle of a store or of a policy set in the library. Zeroes are a closed handle."""

    _fields_ = [("at", ctypes.c_void_p), ("is_open", ctypes.c_bool)]


_B, _P, _N, _U = ctypes.c_char_p, ctypes.c_void_p, ctypes.c_size_t, ctypes.c_uint32
_KEY = [ctypes.c_uint64, ctypes.c_uint64]
_TEXT = [_B, _N]
_LISTS = _TEXT + [_P, _N, _N, _P, _N, _U]

_DECLARED: Dict[str, Tuple[Any, List[Any]]] = {
    "run": (_U, _TEXT + _KEY + [_P, _N, _P, _P]),
    "uid_check": (_U, _TEXT),
    "uids_check": (_U, _TEXT + [_P, _N, _P]),
    "error_part": (ctypes.c_bool, [_U] + _TEXT + [_N, _P]),
    "uid_make": (_U, _TEXT + _TEXT + [_P, _N, _P]),
    "uid_parts": (_U, _TEXT + [_P, _N, _P, _P]),
    "status_text": (_N, [_U, _P, _N]),
    "version": (_U, []),
    "store_build": (_U, [_P] + _LISTS),
    "store_add": (_U, [_P] + _LISTS),
    "store_upsert": (_U, [_P] + _LISTS),
    "store_remove": (_U, [_P] + _TEXT + [_P, _N, _U]),
    "store_get": (_U, [_P] + _TEXT + _TEXT + [_P]),
    "store_get_tag": (_U, [_P] + _TEXT + _TEXT + [_P]),
    "store_result_nodes": (_N, [_P, _N, _P, _N]),
    "store_validate": (_U, [_P]),
    "store_uids": (_U, [_P]),
    "store_text": (_U, [_P]),
    "store_descendants": (_U, [_P] + _TEXT),
    "store_descendants_of_type": (_U, [_P] + _TEXT + _TEXT),
    "store_path": (_U, [_P] + _TEXT + _TEXT + [_P]),
    "store_reaches": (_U, [_P] + _TEXT + _TEXT + [_P]),
    "store_slice": (_U, [_P, _P] + _TEXT + [_P, _N]),
    "store_slice_deep_copy": (_U, [_P, _P] + _TEXT + [_P, _N]),
    "policies_add_static": (_U, [_P] + _TEXT + [_U]),
    "policies_add_template": (_U, [_P] + _TEXT + [_U, _U]),
    "policies_link": (_U, [_P] + _TEXT + _TEXT + _TEXT + [_P, _N]),
    "policies_unlink": (_U, [_P] + _TEXT),
    "policies_remove_static": (_U, [_P] + _TEXT),
    "policies_remove_template": (_U, [_P] + _TEXT),
    "policies_merge": (_U, [_P, _P, ctypes.c_bool]),
    "policies_merge_deep_copy": (_U, [_P, _P, ctypes.c_bool]),
    "policies_ids": (_U, [_P, _U]),
    "policies_annotation": (_U, [_P] + _TEXT + _TEXT + [_P]),
    "policies_text": (_U, [_P]),
    "policies_validate": (_U, [_P]),
    "policies_scope": (_U, [_P] + _TEXT + [_U, _P]),
    "policies_clause": (_U, [_P] + _TEXT + [_P]),
    "policies_condition": (_U, [_P] + _TEXT),
    "policies_result_nodes": (_N, [_P, _N, _P, _N]),
}
for _name in ("static", "template"):
    _DECLARED[f"policies_add_{_name}_with"] = (_U, [_P] + _TEXT + _TEXT + [_P] + [_P, _N] * 3)
for _name in ("get", "effect", "slots"):
    _DECLARED[f"policies_{_name}"] = (_U, [_P] + _TEXT + [_P])
for _name in (
    *("annotations", "env", "template_id", "linked", "policy_text", "template_text", "unknown_entities"),
    *("naming", "templates_naming"),
):
    _DECLARED[f"policies_{_name}"] = (_U, [_P] + _TEXT)
for _name in ("build", "add", "upsert"):
    _DECLARED[f"store_{_name}_with"] = (_U, [_P] + _TEXT + [_P, _N, _N] + [_P, _N] * 4 + [_U])
for _prefix in ("store_", "policies_"):
    _DECLARED[_prefix + "new"] = (_U, [_P] + _KEY)
    _DECLARED[_prefix + "free"] = (None, [_P])
    _DECLARED[_prefix + "copy"] = (_U, [_P, _P])
    _DECLARED[_prefix + "deep_copy"] = (_U, [_P, _P])
    _DECLARED[_prefix + "equal"] = (_U, [_P, _P, _P])
    _DECLARED[_prefix + "error_text"] = (_N, [_P, _P, _N])


def _path() -> str:
    """Returns the path of the shared library."""
    path = os.environ.get("CEDAR_LIBRARY")
    if path:
        return os.path.abspath(path)
    package = os.path.dirname(os.path.abspath(__file__))
    in_package = os.path.join(package, "libcedar.so")
    if os.path.exists(in_package):
        return in_package
    callers = os.path.dirname(os.path.dirname(package))
    if os.path.exists(os.path.join(callers, "c", "cedar.h")):
        for folder in (("out",), ("out", "try")):
            in_checkout = os.path.join(callers, *folder, "libcedar.so")
            if os.path.exists(in_checkout):
                return in_checkout
    raise ImportError("cannot find libcedar.so: run callers/run or callers/run-unproved in the checkout, or set "
                      "CEDAR_LIBRARY to its path")


def _section_names(path: str) -> bytes:
    """Returns the names of the sections of a library for Linux, each with a zero after it."""
    with open(path, "rb") as file:
        (sections_at,) = struct.unpack_from("<Q", file.read(64), 40)
        file.seek(58)
        size, count, names_index = struct.unpack("<HHH", file.read(6))
        file.seek(sections_at + size * names_index)
        names_at, names_size = struct.unpack_from("<QQ", file.read(size), 24)
        file.seek(names_at)
        return file.read(names_size)


def _is_proved(path: str) -> bool:
    """Returns whether a library is proved. `callers/run-unproved` marks its library with a section."""
    try:
        return b"\0.cedar_unproved\0" not in _section_names(path)
    except (OSError, struct.error):
        return False


_LIBRARY = ctypes.CDLL(_path())
# The same library. Its functions keep the lock of the Python interpreter during a call.
_LOCKED_LIBRARY = ctypes.PyDLL(_LIBRARY._name)

PROVED = _is_proved(_LIBRARY._name)
VERSION = "0.1.0"


def _symbol(library: Any, name: str) -> Any:
    try:
        return library["cedar_" + name]
    except AttributeError:
        raise ImportError(f"the library {_LIBRARY._name} has no function cedar_{name}: cedar_store {VERSION} needs a "
                          f"library of version {VERSION}") from None


def function(name: str) -> Any:
    """Returns a library function that can take long. It converts its arguments and lets other Python threads run
    meanwhile.
    """
    symbol = _symbol(_LIBRARY, name)
    symbol.restype, symbol.argtypes = _DECLARED[name]
    return symbol


def quick_function(name: str, result: Any = _U) -> Any:
    """Returns a library function that returns quickly. It takes bytes, sizes and addresses, and converts nothing."""
    symbol = _symbol(_LOCKED_LIBRARY, name)
    symbol.restype = result
    return symbol


def functions(kind: str, *names: str) -> List[Any]:
    """Returns some functions of a kind of handles, `store` or `policies`."""
    return [function(f"{kind}_{name}") for name in names]


def copying_functions(kind: str) -> List[Any]:
    """Returns the functions that copy the text of the last error, the last result and its spans from a kind of handles.
    Each returns the whole length.
    """
    return [quick_function(f"{kind}_{name}", _N) for name in ("error_text", "result", "result_spans")]


class _Sizes(Dict[int, Any]):
    """Numbers as `size_t` arguments. The small numbers are created only once."""

    def __missing__(self, size: int) -> Any:
        return _N.from_param(size)


# Converts a number to a `size_t` argument. A number out of range loses bits.
as_size = _N.from_param
SIZES = _Sizes({size: _N.from_param(size) for size in range(513)})


def encode(text: str) -> bytes:
    """Encodes a text as UTF-8. A lone surrogate is encoded too, so that the library reports it."""
    if not isinstance(text, str):
        raise TypeError(f"expected a str, got a {type(text).__name__}: {text!r}")
    return text.encode("utf-8", "surrogatepass")


def encode_with_length(text: str) -> Tuple[bytes, int]:
    """Returns the encoded text and its length."""
    encoded = encode(text)
    return encoded, len(encoded)


class UidList:
    """A list of uids, encoded as one text and the span of each uid in it. It must live until the call returns."""

    __slots__ = ("text", "spans", "count")

    def __init__(self, uids: List[str]) -> None:
        try:
            joined = "".join(uids)
        except TypeError:
            wrong = next(uid for uid in uids if not isinstance(uid, str))
            raise TypeError(f"expected a uid as a str, got a {type(wrong).__name__}: {wrong!r}") from None
        self.text = encode(joined)
        if len(self.text) == len(joined):
            ends = array("Q", accumulate(map(len, uids)))
        else:
            ends = array("Q", accumulate(len(encode(uid)) for uid in uids))
        self.count = len(ends)
        self.spans = array("Q", bytes(16 * max(self.count, 1)))
        if self.count:
            self.spans[1::2] = ends
            self.spans[2::2] = ends[:-1]

    def arguments(self) -> Tuple[bytes, int, int, int]:
        """Returns the text, its length, the address of the spans and their number."""
        return self.text, len(self.text), self.spans.buffer_info()[0], self.count

    def text_at(self, index: int) -> str:
        """Returns the text at an index of the list."""
        return self.text[self.spans[2 * index] : self.spans[2 * index + 1]].decode("utf-8", "replace")

    def first_invalid(self) -> Optional[int]:
        """Returns the index of the first text that is not a uid, or None."""
        index = ctypes.c_size_t(0)
        return index.value if _uids_check(*self.arguments(), ctypes.byref(index)) == NOT_A_UID else None


    def names_of(self, status: int) -> Tuple[str, ...]:
        """Returns the texts that an exception for a status names, besides the uids of the list."""
        return ()


def encode_edges(edges: List[int]) -> "array[int]":
    """Encodes edges, two numbers each. The array has an address even if there are no edges."""
    return array("Q", edges or (0,))


def list_of_texts(texts: Iterable[str]) -> List[str]:
    """Returns the texts as a list. Raises `TypeError` for a single text."""
    if isinstance(texts, str):
        raise TypeError(f"expected a list of texts, got one text: {texts!r}")
    return list(texts)


def key_numbers(key: Optional[bytes]) -> Tuple[int, int]:
    """Returns a key as the two numbers that the library takes. Draws a random key if there is none."""
    key_bytes = os.urandom(16) if key is None else bytes(key)
    if len(key_bytes) != 16:
        raise ValueError(f"a key must have 16 bytes, got {len(key_bytes)}")
    low, high = struct.unpack("<QQ", key_bytes)
    return low, high


_run, _status_text, _version = function("run"), function("status_text"), function("version")
_uids_check, _name_span = function("uids_check"), function("error_part")


def names_in_error_text(status: int, text: str) -> List[str]:
    """Returns the items that the text of an error names, in the order of the text."""
    names: List[str] = []
    encoded, span = encode(text), (ctypes.c_size_t * 2)()
    while _name_span(status, encoded, len(encoded), len(names), span):
        names.append(encoded[span[0] : span[1]].decode("utf-8", "replace"))
    return names


def status_text(status: int) -> str:
    """Returns the words for a status of `cedar.h`, like `not a uid`. Returns an empty text if there is no such status.

    >>> status_text(4)
    'not a uid'
    """
    if not isinstance(status, int):
        raise TypeError(f"expected a status as an int, got a {type(status).__name__}: {status!r}")
    if not 0 <= status < 1 << 32:
        return ""
    buffer = ctypes.create_string_buffer(256)
    length = _status_text(status, buffer, 256)
    return buffer.raw[:length].decode()


def version() -> str:
    """Returns the version of the loaded library.

    >>> version()
    '0.1.0'
    """
    number = _version()
    return f"{number >> 16}.{number >> 8 & 255}.{number & 255}"


if version() != VERSION:
    raise ImportError(f"the library {_LIBRARY._name} has the version {version()}, but cedar_store {VERSION} needs a "
                      f"library of version {VERSION}")


def run(lines: bytes, *, key: Optional[bytes] = None) -> Tuple[bytes, int]:
    """Runs the program on all lines of an input. Returns its output and its exit status, 0 or 2.

    Raises:
        OutOfMemory: an allocation failed.
        TypeError: the lines are not `bytes`.
        ValueError: the key does not have 16 bytes.

    >>> run(b'ent\\tA::"a"\\tA::"b"\\nbuild\\nanc\\tA::"a"\\n')
    (b'ok 1\\nanc\\tA::"b"\\n', 0)
    """
    if not isinstance(lines, bytes):
        raise TypeError(f"expected bytes as the lines, got a {type(lines).__name__}: {lines!r}")
    numbers, capacity = key_numbers(key), max(len(lines), 4096)
    while True:
        buffer, length, exit_status = ctypes.create_string_buffer(capacity), ctypes.c_size_t(0), ctypes.c_uint32(0)
        status = _run(lines, len(lines), *numbers, buffer, capacity, ctypes.byref(length), ctypes.byref(exit_status))
        if status:
            raise_error(status)
        if length.value <= capacity:
            return buffer.raw[: length.value], exit_status.value
        capacity = length.value
