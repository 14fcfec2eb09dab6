"""Queries of a store over its parents: who is below a uid, and why."""
from __future__ import annotations

import ctypes
from typing import Any, List, Optional, Tuple

from ._errors import NOT_A_NAME, NOT_A_UID
from ._handle import HandleOwner
from ._library import encode_with_length, function
from ._uids import EntityUid, is_uid, unchecked_uids

_descendants, _descendants_of_type, _path, _reaches = [
    function("store_" + name) for name in ("descendants", "descendants_of_type", "path", "reaches")
]


class StoreQueries(HandleOwner):
    """The queries of a store over its parents. `Store` has them."""

    __slots__ = ()

    def descendants(self, uid: str, type: Optional[str] = None) -> List[EntityUid]:
        """Returns the descendants of a uid, in ascending order: all entities that reach it over one or more parents.
        With a type, returns only those of this type.

        Only parents count, not indirect ancestors that a store was given. A uid on a cycle of parents is its own
        descendant. The store need not have an entity with the uid.

        Raises:
            NotAUid: the text is not a uid.
            NotAName: the type is not a name.

        >>> from cedar_store import Store
        >>> store = Store({'User::"alice"': ['Group::"staff"'], 'Group::"staff"': ['Group::"all"']})
        >>> store.descendants('Group::"all"')
        [EntityUid('Group::"staff"'), EntityUid('User::"alice"')]
        >>> store.descendants('Group::"all"', "User")
        [EntityUid('User::"alice"')]
        """
        encoded = encode_with_length(uid)
        if type is None:
            return unchecked_uids(self._call_for_texts(_descendants, *encoded, names=(uid,)))

        def names(status: int) -> Tuple[str, ...]:
            return (str(type) if status == NOT_A_NAME else uid,)

        encoded_type = encode_with_length(type)
        return unchecked_uids(self._call_for_texts(_descendants_of_type, *encoded, *encoded_type, names=names))

    def path(self, child: str, ancestor: str) -> Optional[List[EntityUid]]:
        """Returns a shortest path over parents from the first uid to the second, or None if there is none.

        The path begins with `child` and ends with `ancestor`, and each uid in it is a parent of the one before. It has
        at least one step. In a computed store, a path exists exactly to an ancestor. The store need not have an entity
        with either uid.

        Raises:
            NotAUid: a text is not a uid.

        >>> from cedar_store import Store
        >>> store = Store({'User::"alice"': ['Group::"staff"'], 'Group::"staff"': ['Group::"all"']})
        >>> print(*store.path('User::"alice"', 'Group::"all"'), sep=" in ")
        User::"alice" in Group::"staff" in Group::"all"
        """
        exists = ctypes.c_bool(False)
        arguments = *encode_with_length(child), *encode_with_length(ancestor), ctypes.byref(exists)
        texts = self._call_for_texts(_path, *arguments, names=self._names_of_pair(child, ancestor))
        return unchecked_uids(texts) if exists.value else None

    def reaches(self, child: str, ancestor: str) -> bool:
        """Returns whether the first uid reaches the second over one or more parents.

        If `is_descendant_of` is True and this is False, the parents do not explain the ancestor: it is an indirect
        ancestor that the store was given.

        Raises:
            NotAUid: a text is not a uid.

        >>> from cedar_store import Entity, Mode, Store
        >>> store = Store([Entity('User::"alice"', indirect_ancestors=['Group::"all"'])], Mode.ASSUME)
        >>> store.is_descendant_of('User::"alice"', 'Group::"all"'), store.reaches('User::"alice"', 'Group::"all"')
        (True, False)
        """
        result = ctypes.c_bool(False)
        arguments = *encode_with_length(child), *encode_with_length(ancestor), ctypes.byref(result)
        self._call(_reaches, *arguments, names=self._names_of_pair(child, ancestor))
        return result.value

    @staticmethod
    def _names_of_pair(child: str, ancestor: str) -> Any:
        """Returns a function that returns the invalid one of two texts for a status."""

        def names(status: int) -> Tuple[str, ...]:
            return (ancestor if status == NOT_A_UID and is_uid(child) else child,)

        return names
