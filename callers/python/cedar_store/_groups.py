"""Groups of handles that share memory, each with one lock.

A store, its copies and its slices share entities, and so they are one group. A call takes the lock of its group, from
whatever thread. So the calls of several threads on one group happen one after another, as `cedar.h` requires. Two
groups share nothing: their calls run at the same time.
"""
from __future__ import annotations

import contextlib
import ctypes
import os
import threading
import weakref
from typing import Any, Callable, Iterator, List, NoReturn, Optional, Tuple, TypeVar

from ._library import Handle

_BUFFER_SIZE = 4096
_Result = TypeVar("_Result")


class Group:
    """Handles that share memory. A call on one of them takes the lock.

    The lock is reentrant, because a signal handler or a finalizer can call in the middle of another call of its thread.
    A call in several steps, whose results such a call would change, sets `is_busy`. An interrupt can leave it set, so
    it counts only if the thread already has the lock when a call begins.
    """

    __slots__ = ("lock", "is_busy", "_dropped", "_text_buffer", "_span_buffer", "__weakref__")

    def __init__(self) -> None:
        self.lock: Any = threading.RLock()
        self.is_busy = False
        self._dropped: List[Tuple[Any, Handle, Callable[[Any], None]]] = []
        self._text_buffer: Optional[Any] = None
        self._span_buffer: Optional[Any] = None
        _GROUPS.add(self)

    def run(self, call: Callable[..., _Result], *arguments: Any) -> _Result:
        """Makes a call in several steps, with the lock.

        Raises:
            RuntimeError: this thread is in the middle of another call on the group.
        """
        is_nested = self.lock._is_owned()
        with self.lock:
            self._begin(is_nested)
            try:
                return call(*arguments)
            finally:
                self.is_busy = False

    def _begin(self, is_nested: bool) -> None:
        if is_nested and self.is_busy:
            raise RuntimeError(
                "cannot call: a signal handler or a finalizer uses this object in the middle of another call"
            )
        self.is_busy = True
        if self._dropped:
            self._free_dropped()

    def _free_dropped(self) -> None:
        # A finalizer can call this again in between, so the list can be empty at any time.
        while True:
            try:
                pointer, _, free = self._dropped.pop()
            except IndexError:
                return
            free(pointer)

    def drop(self, pointer: Any, handle: Handle, free: Callable[[Any], None]) -> None:
        """Frees a handle whose object is gone. If another thread has the lock, a later call on the group frees it, or
        the end of the group.
        """
        self._dropped.append((pointer, handle, free))
        if self.lock.acquire(False):
            try:
                self._free_dropped()
            finally:
                self.lock.release()

    def __del__(self) -> None:
        self._free_dropped()

    @property
    def text_buffer(self) -> Any:
        """Returns the buffer for the bytes of a result."""
        if self._text_buffer is None:
            self._text_buffer = (ctypes.c_char * _BUFFER_SIZE)()
        return self._text_buffer

    @property
    def span_buffer(self) -> Any:
        """Returns the buffer for the spans of a result."""
        if self._span_buffer is None:
            self._span_buffer = (ctypes.c_size_t * (_BUFFER_SIZE // 4))()
        return self._span_buffer


def _in_order(first: Group, second: Group) -> Tuple[Group, Group]:
    """Returns two groups in the order in which each thread takes their locks."""
    return (first, second) if id(first) < id(second) else (second, first)


@contextlib.contextmanager
def both_locked(first: Group, second: Group) -> Iterator[None]:
    """Returns a context with the locks of two groups, for several calls."""
    low, high = _in_order(first, second)
    with low.lock, high.lock:
        yield


def run_on_both(first: Group, second: Group, call: Callable[..., _Result], *arguments: Any) -> _Result:
    """Makes a call in several steps, with the locks of two groups. Their order is the same in each thread."""
    if first is second:
        return first.run(call, *arguments)
    low, high = _in_order(first, second)
    is_nested = low.lock._is_owned(), high.lock._is_owned()
    with low.lock, high.lock:
        low._begin(is_nested[0])
        try:
            high._begin(is_nested[1])
            return call(*arguments)
        finally:
            low.is_busy = high.is_busy = False


class _LostLock:
    """The lock of a group that another thread used when the process forked. Its memory may be half changed."""

    def __enter__(self) -> NoReturn:
        raise RuntimeError("cannot call: another thread used the store or the policy set when the process forked")

    def __exit__(self, *_: object) -> None:
        pass

    def acquire(self, _: bool = True) -> bool:
        """Returns False, so that nothing is freed."""
        return False

    def _is_owned(self) -> bool:
        return False


_GROUPS: weakref.WeakSet[Group] = weakref.WeakSet()
_HELD: List[Group] = []


def _before_fork() -> None:
    """Waits for the calls of other threads, and takes all locks. So the child gets no store that is half changed."""
    while True:
        new = sorted(set(_GROUPS).difference(_HELD), key=id)
        if not new:
            return
        for group in new:
            group.lock.acquire()
            _HELD.append(group)


def _after_fork_in_parent() -> None:
    while _HELD:
        _HELD.pop().lock.release()


def _after_fork_in_child() -> None:
    held = set(_HELD)
    _after_fork_in_parent()
    for group in set(_GROUPS).difference(held):
        # Another thread created the group after the locks were taken.
        if group.lock.acquire(False):
            group.lock.release()
        else:
            group.lock = _LostLock()


os.register_at_fork(
    before=_before_fork, after_in_parent=_after_fork_in_parent, after_in_child=_after_fork_in_child
)
