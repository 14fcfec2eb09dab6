"""Stores of entities."""
from __future__ import annotations

import ctypes
import dataclasses
from typing import Any, Dict, Iterable, Iterator, List, Mapping, Optional, Tuple, Type, TypeVar, Union

from ._content import Content, Entities, as_entity, as_pair, encode_pairs
from ._diff import StoreDiff, diff_stores
from ._dot import to_dot
from ._entity import Entity, Unknown
from ._errors import BAD_ARGUMENT, NOT_A_UID, CedarError, UNKNOWN_ENTITY, enum_number, raise_error
from ._groups import Group, both_locked
from ._mode import Mode
from ._library import (
    SIZES,
    UidList,
    as_size,
    copying_functions,
    encode,
    encode_edges,
    function,
    functions,
    list_of_texts,
    quick_function,
)
from ._store_queries import StoreQueries
from ._uids import EntityUid, is_uid, unchecked_uids
from .values import NODE_SIZE, ReadTerm, Term, from_nodes, node_fields


# Each change has two functions: one for uids with parents, one for entities with content.
_build, _add, _upsert = [
    (function("store_" + name), function(f"store_{name}_with")) for name in ("build", "add", "upsert")
]
_remove, _validate, _slice, _slice_deep_copy = [
    function("store_" + name) for name in ("remove", "validate", "slice", "slice_deep_copy")
]
_uids, _text = function("store_uids"), function("store_text")
_get, _get_tag = quick_function("store_get"), quick_function("store_get_tag")
_len, _result_nodes = [quick_function("store_" + name, ctypes.c_size_t) for name in ("len", "result_nodes")]
_has, _entity, _entity_equal = [quick_function("store_" + name) for name in ("has", "entity", "entity_equal")]
_partial, _is_partial = quick_function("store_partial"), quick_function("store_is_partial")
_is_descendant, _is_child, _is_indirect_descendant = [
    quick_function(f"store_is_{name}_of") for name in ("descendant", "child", "indirect_descendant")
]
_uid_number, _number_uid, _has_number, _is_descendant_of_numbers = [
    quick_function("store_" + name) for name in ("uid_number", "number_uid", "has_number", "is_descendant_of_numbers")
]
_ancestors, _parents, _indirect_ancestors = [
    quick_function("store_" + name) for name in ("ancestors", "parents", "indirect_ancestors")
]
_keys, _tag_keys, _entity_text = [quick_function("store_" + name) for name in ("keys", "tag_keys", "entity_text")]
_attrs_len, _tags_len = quick_function("store_attrs_len"), quick_function("store_tags_len")
_bool_out, _byref = ctypes.c_bool, ctypes.byref
# Outputs of quick calls, each with a reference to it. A call takes one, so that no other call in between changes it.
_bool_outs: List[Any] = []
_take_bool_out, _return_bool_out = _bool_outs.pop, _bool_outs.append


def _new_bool_out() -> Any:
    result = _bool_out()
    return result, _byref(result)



# A number of more bits, or below 0, belongs to no uid.
_NUMBER_BITS = 8 * ctypes.sizeof(ctypes.c_size_t) - 1

# The largest store whose text one call of the library writes.
_MAX_LEN_FOR_TEXT = 100
_Self = TypeVar("_Self", bound="Store")


class Store(StoreQueries):
    """A store of entities, given as a mapping from uids to parents, or as a list of pairs, of `Entity` or of dataclass
    instances.

    Any thread may use a store. Calls on a store, its copies and its slices happen one after another. Iteration, `len`
    and `in` work on the uids of the entities, `store[uid]` is an `Entity`, and so `dict(store)` is all of them. If
    `add`, `upsert` or `remove` raises an exception, the store is unchanged. One exception: after an `OutOfMemory` the
    store may have no entities.

    The constructor builds the store: see `build`.

    Raises:
        Closed: the store was closed (every method except `len`).
        OutOfMemory: an allocation failed (every method).
        TypeError: an argument has the wrong type, for example a uid that is not a `str`.
        NotAUid: a text that should be a uid is not one.

    >>> store = Store({'User::"alice"': ['Group::"staff"'], 'Group::"staff"': ['Group::"all"']})
    >>> store.is_descendant_of('User::"alice"', 'Group::"all"')
    True
    """

    __slots__ = ()
    _noun = "a store"
    _new, _free, _copy, _deep_copy, _equal = functions("store", "new", "free", "copy", "deep_copy", "equal")
    _error_text, _result, _result_spans = copying_functions("store")

    def __init__(self, entities: Entities = (), mode: int = Mode.COMPUTE, *, key: Optional[bytes] = None) -> None:
        enum_number(mode, Mode)
        super().__init__(key=key)
        self._insert(_build, entities, mode)

    @classmethod
    def build(cls: Type[_Self], entities: Entities, mode: int = Mode.COMPUTE, *, key: Optional[bytes] = None) -> _Self:
        """Returns a new store of the given entities, like the class itself.

        Raises:
            ValueError: the mode is invalid, the key does not have 16 bytes, or a number does not fit into 64 bits.
            DuplicateEntity: two different entities have the same uid.
            Cycle: an entity is its own ancestor (see `Mode`).
            MissingAncestor: an ancestor of an ancestor is missing (see `Mode`).
            NotAUid, NotAName, NotUtf8, TooDeep: an entity is invalid.

        >>> len(Store.build([Entity('User::"alice"', attrs={"age": 41}), ('User::"bob"', [])]))
        2
        """
        return cls(entities, mode, key=key)

    def _insert(self, functions: Tuple[Any, Any], entities: Entities, mode: int) -> None:
        """Builds, adds or upserts. The second function is for entities with content."""
        mode_number = enum_number(mode, Mode)
        pairs: Iterable[Tuple[str, Iterable[str]]]
        if isinstance(entities, Mapping):
            pairs = entities.items()
        else:
            items: List[Any] = list(entities)
            if all([type(item) is tuple and len(item) == 2 for item in items]):
                pairs = items
            elif any(isinstance(item, Entity) or dataclasses.is_dataclass(item) for item in items):
                self._insert_content(functions, list(map(as_entity, items)), mode_number)
                return
            else:
                pairs = list(map(as_pair, items))
        uids, count, edges = encode_pairs(pairs)
        encoded_edges = encode_edges(edges)
        address, _ = encoded_edges.buffer_info()
        self._call_with_uids(functions[0], uids, *uids.arguments(), count, address, len(edges) // 2, mode_number)

    def _insert_content(self, functions: Tuple[Any, Any], items: List[Entity], mode: int) -> None:
        content = Content(items)
        self._call_with_uids(functions[1], content, *content.call_arguments(), mode)

    def add(self, entities: Entities, mode: int = Mode.COMPUTE) -> None:
        """Adds entities. An entity with a stored uid must equal the stored entity, and changes nothing.

        Raises:
            ValueError: the mode is invalid, or a number does not fit into 64 bits.
            DuplicateEntity: a different entity with the same uid exists.
            Cycle, MissingAncestor, NotAUid, NotAName, NotUtf8, TooDeep: as `build`.

        >>> store = Store()
        >>> store.add({'User::"alice"': ['Group::"staff"']})
        >>> store.add({'User::"alice"': []})
        Traceback (most recent call last):
        cedar_store.DuplicateEntity: duplicate entity User::"alice"
        """
        self._insert(_add, entities, mode)

    def upsert(self, entities: Entities, mode: int = Mode.COMPUTE) -> None:
        """Inserts entities, and replaces the stored entities with the same uids. If a uid occurs several times, the
        last entity with it is used.

        Raises:
            ValueError: the mode is invalid, or a number does not fit into 64 bits.
            Cycle, MissingAncestor, NotAUid, NotAName, NotUtf8, TooDeep: as `build`.

        >>> store = Store({'User::"alice"': ['Group::"staff"']})
        >>> store.upsert([('User::"alice"', [])])
        >>> store.ancestors('User::"alice"')
        []
        """
        self._insert(_upsert, entities, mode)

    def remove(self, uids: Iterable[str], mode: int = Mode.COMPUTE) -> None:
        """Removes entities, also from the parents of other entities. Uids that are not in the store have no effect.

        Raises:
            ValueError: the mode is invalid.
            NotAUid: a text is not a uid.
            Cycle, MissingAncestor: see `Mode`, only if another mode than `COMPUTE` built or changed the store.

        >>> store = Store({'User::"alice"': [], 'User::"bob"': []})
        >>> store.remove(['User::"bob"'])
        >>> list(store)
        [EntityUid('User::"alice"')]
        """
        mode_number, uid_list = enum_number(mode, Mode), UidList(list_of_texts(uids))
        self._call_with_uids(_remove, uid_list, *uid_list.arguments(), mode_number)

    def __len__(self) -> int:
        with self._group.lock:
            length: int = _len(self._pointer)
        return length

    def __contains__(self, uid: object) -> bool:
        """Returns whether the store has an entity with this uid. Returns False if the argument is not a uid."""
        if not isinstance(uid, str):
            return False
        text = encode(uid)
        try:
            out = _take_bool_out()
        except IndexError:
            out = _new_bool_out()
        with self._group.lock:
            status = _has(self._pointer, text, SIZES[len(text)], out[1])
        result: bool = out[0].value
        _return_bool_out(out)
        if status:
            if status == NOT_A_UID:
                return False
            self._raise_error(status, uid)
        return result

    def is_descendant_of(self, child: str, ancestor: str) -> bool:
        """Returns whether the second uid is an ancestor of the first.

        Raises:
            UnknownEntity: the store has no entity with the first uid.
            NotAUid: a text is not a uid.

        >>> Store({'User::"alice"': ['Group::"staff"']}).is_descendant_of('User::"alice"', 'Group::"staff"')
        True
        """
        try:
            text, other = child.encode(), ancestor.encode()
        except (AttributeError, UnicodeEncodeError):
            text, other = encode(child), encode(ancestor)
        try:
            out = _take_bool_out()
        except IndexError:
            out = _new_bool_out()
        with self._group.lock:
            status = _is_descendant(self._pointer, text, SIZES[len(text)], other, SIZES[len(other)], out[1])
        result: bool = out[0].value
        _return_bool_out(out)
        if status:
            self._raise_pair_error(status, child, ancestor)
        return result

    def _raise_pair_error(self, status: int, child: str, ancestor: str) -> None:
        names_ancestor = status == NOT_A_UID and is_uid(child)
        self._raise_error(status, ancestor if names_ancestor else child)

    def number(self, uid: str) -> int:
        """Returns the number of a uid in this store. Queries by number do not read a text.

        The number of a uid never changes, and is also given to a uid without an entity. The store stores each uid that
        has a number. A copy, a slice and an unpickled store have numbers of their own.

        Raises:
            NotAUid: the text is not a uid.

        >>> store = Store()
        >>> store.number('User::"alice"'), store.number('User::"bob"'), store.number('User::"alice"')
        (0, 1, 0)
        """
        return self._call_for_count(_uid_number, uid)

    def uid_of_number(self, number: int) -> EntityUid:
        """Returns the uid with this number.

        Raises:
            BadArgument: no uid of this store has the number.

        >>> store = Store()
        >>> store.uid_of_number(store.number('User::"alice"'))
        EntityUid('User::"alice"')
        """
        if number >> _NUMBER_BITS:
            raise_error(BAD_ARGUMENT, f"number {number}")
        texts = self._call_for_texts(_number_uid, as_size(number), names=(f"number {number}",))
        return unchecked_uids(texts)[0]

    def has_number(self, number: int) -> bool:
        """Returns whether the store has an entity whose uid has this number.

        Raises:
            BadArgument: no uid of this store has the number.

        >>> store = Store({'User::"alice"': []})
        >>> store.has_number(store.number('User::"alice"')), store.has_number(store.number('User::"bob"'))
        (True, False)
        """
        if number >> _NUMBER_BITS:
            raise_error(BAD_ARGUMENT, f"number {number}")
        return self._call_for_bool(_has_number, as_size(number), names=(f"number {number}",))

    def is_descendant_of_numbers(self, child: int, ancestor: int) -> bool:
        """Returns the result of `is_descendant_of` for the uids with these numbers, without reading a text.

        Raises:
            BadArgument: no uid of this store has one of the numbers.
            UnknownEntity: the store has no entity with the first uid.

        >>> store = Store({'User::"alice"': ['Group::"staff"']})
        >>> store.is_descendant_of_numbers(store.number('User::"alice"'), store.number('Group::"staff"'))
        True
        """
        try:
            out = _take_bool_out()
        except IndexError:
            out = _new_bool_out()
        status = BAD_ARGUMENT
        if not (child | ancestor) >> _NUMBER_BITS:
            with self._group.lock:
                status = _is_descendant_of_numbers(self._pointer, as_size(child), as_size(ancestor), out[1])
        result: bool = out[0].value
        _return_bool_out(out)
        if status == UNKNOWN_ENTITY:
            self._raise_error(status, self.uid_of_number(child))
        if status:
            self._raise_error(status, f"numbers {child} and {ancestor}")
        return result

    def _call_with_pair(self, function: Any, child: str, ancestor: str) -> bool:
        """Calls a library function on two uids that returns a `bool`. Raises an exception if the status is not 0."""
        text, other, result = encode(child), encode(ancestor), _bool_out()
        with self._group.lock:
            status = function(self._pointer, text, SIZES[len(text)], other, SIZES[len(other)], _byref(result))
        if status:
            self._raise_pair_error(status, child, ancestor)
        return result.value

    def is_child_of(self, child: str, parent: str) -> bool:
        """Returns whether the second uid is a parent of the first.

        Raises:
            UnknownEntity: the store has no entity with the first uid.
            NotAUid: a text is not a uid.

        >>> Store({'User::"alice"': ['Group::"staff"']}).is_child_of('User::"alice"', 'Group::"staff"')
        True
        """
        return self._call_with_pair(_is_child, child, parent)

    def is_indirect_descendant_of(self, child: str, ancestor: str) -> bool:
        """Returns whether the second uid is an indirect ancestor of the first. In a computed store, no parent is one.

        Raises:
            UnknownEntity: the store has no entity with the first uid.
            NotAUid: a text is not a uid.

        >>> store = Store({'User::"alice"': ['Group::"staff"'], 'Group::"staff"': ['Group::"all"']})
        >>> store.is_indirect_descendant_of('User::"alice"', 'Group::"all"')
        True
        """
        return self._call_with_pair(_is_indirect_descendant, child, ancestor)

    def _call_for_count(self, function: Any, uid: str) -> int:
        text, number = encode(uid), ctypes.c_size_t(0)
        with self._group.lock:
            status = function(self._pointer, text, SIZES[len(text)], _byref(number))
        if status:
            self._raise_error(status, uid)
        return number.value

    def _texts_of(self, function: Any, uid: str) -> List[str]:
        text = encode(uid)
        return self._call_for_texts(function, text, SIZES[len(text)], names=(uid,))

    def ancestors(self, uid: str) -> List[EntityUid]:
        """Returns the ancestors of an entity, in ascending order.

        Raises:
            UnknownEntity: the store has no entity with this uid.
            NotAUid: the text is not a uid.

        >>> Store({'User::"alice"': ['Group::"staff"']}).ancestors('User::"alice"')
        [EntityUid('Group::"staff"')]
        """
        return unchecked_uids(self._texts_of(_ancestors, uid))

    def parents(self, uid: str) -> List[EntityUid]:
        """Returns the parents of an entity, in ascending order.

        Raises:
            UnknownEntity: the store has no entity with this uid.
            NotAUid: the text is not a uid.

        >>> Store({'User::"alice"': ['Group::"staff"']}).parents('User::"alice"')
        [EntityUid('Group::"staff"')]
        """
        return unchecked_uids(self._texts_of(_parents, uid))

    def indirect_ancestors(self, uid: str) -> List[EntityUid]:
        """Returns the indirect ancestors of an entity, in ascending order. In a computed store, no parent is one.

        Raises:
            UnknownEntity: the store has no entity with this uid.
            NotAUid: the text is not a uid.

        >>> Store({'User::"alice"': ['Group::"staff"']}).indirect_ancestors('User::"alice"')
        []
        """
        return unchecked_uids(self._texts_of(_indirect_ancestors, uid))

    def uids(self) -> List[EntityUid]:
        """Returns the uids of all entities, without duplicates and in no particular order.

        >>> sorted(Store({'User::"bob"': [], 'User::"alice"': []}).uids())
        [EntityUid('User::"alice"'), EntityUid('User::"bob"')]
        """
        return unchecked_uids(self._call_for_texts(_uids))

    keys = uids

    def __iter__(self) -> Iterator[EntityUid]:
        """Iterates over the uids that the store has now. Later changes of the store do not affect the iterator."""
        return iter(self.uids())

    def __getitem__(self, uid: str) -> Entity:
        """Returns a snapshot of the entity with this uid.

        Raises:
            UnknownEntity: the store has no entity with this uid. It is a `KeyError` too.
            NotAUid: the text is not a uid.

        >>> Store({'User::"alice"': ['Group::"staff"']})['User::"alice"'].parents
        frozenset({EntityUid('Group::"staff"')})
        """
        with self._group.lock:
            return self._read_entity(uid, self.indirect_ancestors(uid))

    def entity(self, uid: str) -> Union[Entity, Unknown, None]:
        """Returns a snapshot of the entity with this uid. Without one, returns None, or `Unknown.UNKNOWN` in a partial
        store.

        Raises:
            NotAUid: the text is not a uid.

        >>> print(Store().entity('User::"alice"'))
        None
        """
        text = encode(uid)
        with self._group.lock:
            found = self._call_for_number(_entity, text, SIZES[len(text)], names=(uid,))
            if found == 2:
                return self._read_entity(uid, self.indirect_ancestors(uid))
        return Unknown.UNKNOWN if found else None

    def _read_entity(self, uid: str, indirect_ancestors: Iterable[str] = ()) -> Entity:
        attrs = self._read_terms(_get, uid, self.attr_keys(uid)) if self.attrs_len(uid) else {}
        tags = self._read_terms(_get_tag, uid, self.tag_keys(uid)) if self.tags_len(uid) else {}
        return Entity(uid, self.parents(uid), attrs=attrs, tags=tags, indirect_ancestors=indirect_ancestors)

    def _read_terms(self, function: Any, uid: str, keys: List[str]) -> Dict[str, Term]:
        terms: Dict[str, Term] = {}
        for key in keys:
            term = self._read_term(function, uid, key)
            if term is not None:
                terms[key] = term
        return terms

    def partial(self) -> None:
        """Makes the store partial: an entity that it does not contain is unknown, not absent. A copy is partial too, a
        slice is not.

        >>> store = Store()
        >>> store.partial()
        >>> store.entity('User::"alice"')
        <Unknown.UNKNOWN: 'unknown'>
        """
        self._call(_partial)

    def is_partial(self) -> bool:
        """Returns whether the store is partial.

        >>> Store().is_partial()
        False
        """
        return self._call_for_bool(_is_partial)

    def attr_keys(self, uid: str) -> List[str]:
        """Returns the keys of the attributes of an entity, in the order of their bytes.

        Raises:
            UnknownEntity: the store has no entity with this uid.
            NotAUid: the text is not a uid.

        >>> Store([Entity('User::"alice"', attrs={"age": 41})]).attr_keys('User::"alice"')
        ['age']
        """
        return self._texts_of(_keys, uid)

    def tag_keys(self, uid: str) -> List[str]:
        """Returns the keys of the tags of an entity, in the order of their bytes.

        Raises:
            UnknownEntity: the store has no entity with this uid.
            NotAUid: the text is not a uid.

        >>> Store([Entity('User::"alice"', tags={"team": "red"})]).tag_keys('User::"alice"')
        ['team']
        """
        return self._texts_of(_tag_keys, uid)

    def _read_term(self, function: Any, uid: str, key: str) -> Optional[ReadTerm]:
        text, key_text, has = encode(uid), encode(key), _bool_out()

        def read() -> Optional[Tuple[bytes, bytes]]:
            if not has.value:
                return None
            count = _result_nodes(self._pointer, SIZES[0], b"", SIZES[0])
            buffer = ctypes.create_string_buffer(NODE_SIZE * count)
            _result_nodes(self._pointer, SIZES[0], buffer, SIZES[count])
            return self._result_bytes(), buffer.raw

        def names(status: int) -> Tuple[str, ...]:
            return (uid if status in (NOT_A_UID, UNKNOWN_ENTITY) else key,)

        result = self._call_and_read(
            *(function, text, SIZES[len(text)], key_text, SIZES[len(key_text)], _byref(has)), names=names, read=read
        )
        return None if result is None else from_nodes(result[0], node_fields(result[1]))

    def get(self, uid: str, key: str) -> Optional[ReadTerm]:
        """Returns an attribute of an entity: a value, a residual expression, or None if there is no such attribute.

        Raises:
            UnknownEntity: the store has no entity with this uid.
            NotAUid: the text is not a uid.
            NotUtf8: the key has a lone surrogate.

        >>> Store([Entity('User::"alice"', attrs={"age": 41})]).get('User::"alice"', "age")
        41
        """
        return self._read_term(_get, uid, key)

    def get_tag(self, uid: str, key: str) -> Optional[ReadTerm]:
        """Returns a tag of an entity, with the results and the exceptions of `get`.

        >>> Store([Entity('User::"alice"', tags={"team": "red"})]).get_tag('User::"alice"', "team")
        'red'
        """
        return self._read_term(_get_tag, uid, key)

    def attrs_len(self, uid: str) -> int:
        """Returns the number of attributes of an entity.

        Raises:
            UnknownEntity: the store has no entity with this uid.
            NotAUid: the text is not a uid.

        >>> Store([Entity('User::"alice"', attrs={"age": 41})]).attrs_len('User::"alice"')
        1
        """
        return self._call_for_count(_attrs_len, uid)

    def tags_len(self, uid: str) -> int:
        """Returns the number of tags of an entity.

        Raises:
            UnknownEntity: the store has no entity with this uid.
            NotAUid: the text is not a uid.

        >>> Store({'User::"alice"': []}).tags_len('User::"alice"')
        0
        """
        return self._call_for_count(_tags_len, uid)

    def entity_equal(self, uid: str, other: Store) -> bool:
        """Returns whether the entities with this uid in two stores have the same attributes, tags and ancestors.

        Raises:
            UnknownEntity: one of the stores has no entity with this uid.
            NotAUid: the text is not a uid.
            TypeError: `other` is not a `Store`.

        >>> Store({'User::"alice"': []}).entity_equal('User::"alice"', Store({'User::"alice"': []}))
        True
        """
        if not isinstance(other, Store):
            raise TypeError(f"expected a store, got a {type(other).__name__}")
        if other is self:
            self.attrs_len(uid)
            return True
        text, result = encode(uid), _bool_out()
        self._call_with_other(_entity_equal, other, text, SIZES[len(text)], _byref(result), names=(uid,))
        return result.value

    def diff(self, other: Store) -> StoreDiff:
        """Returns what differs between this store and another one, which is taken as the later one: see `StoreDiff`.

        The comparison is Python over proved calls that read both stores. It is tested, not proved. It makes three calls
        for each entity of both stores, and more for each one that differs.

        Raises:
            TypeError: `other` is not a `Store`.

        >>> Store({'User::"alice"': []}).diff(Store({'User::"alice"': [], 'User::"bob"': ['Group::"staff"']}))
        StoreDiff(added=[Entity('User::"bob"', ['Group::"staff"'])])
        """
        if not isinstance(other, Store):
            raise TypeError(f"expected a store, got a {type(other).__name__}")
        with both_locked(self._group, other._group):
            return diff_stores(self, other)

    def would_change(
        self,
        *,
        add: Optional[Entities] = None,
        upsert: Optional[Entities] = None,
        remove: Optional[Iterable[str]] = None,
        mode: int = Mode.COMPUTE,
    ) -> StoreDiff:
        """Returns what these edits would change, in this order, and changes nothing: see `diff`.

        The edits are made on a copy, which shares the entities with this store.

        Raises:
            ValueError: the mode is invalid, or a number does not fit into 64 bits.
            DuplicateEntity, Cycle, MissingAncestor, NotAUid, NotAName, NotUtf8, TooDeep: an edit would fail: see `add`,
                `upsert` and `remove`.

        >>> store = Store({'User::"alice"': ['Group::"staff"'], 'Group::"staff"': ['Group::"all"']})
        >>> print(store.would_change(remove=['Group::"staff"']))
        - Group::"staff"
        -   parent Group::"all"
          User::"alice"
        -   parent Group::"staff"
        -   ancestor Group::"all"
        """
        with self._group.lock, self.copy() as edited:
            if add is not None:
                edited.add(add, mode)
            if upsert is not None:
                edited.upsert(upsert, mode)
            if remove is not None:
                edited.remove(remove, mode)
            return self.diff(edited)

    def entity_text(self, uid: str) -> str:
        """Returns the text of an entity, for display: its uid, its attributes and its ancestors.

        Raises:
            UnknownEntity: the store has no entity with this uid.
            NotAUid: the text is not a uid.

        >>> print(Store({'User::"alice"': ['Group::"staff"']}).entity_text('User::"alice"'))
        User::"alice":
          attrs:
          ancestors:Group::"staff"
        """
        return "".join(self._texts_of(_entity_text, uid))

    def __str__(self) -> str:
        """Returns the texts of all entities for display, in ascending order of uid, with a line feed after each."""
        with self._group.lock:
            if len(self) <= _MAX_LEN_FOR_TEXT:
                return "".join(self._call_for_texts(_text))
            # For more entities, `store_text` is slow: it scans all entities for each one. A helper store sorts the uids
            # instead, because the parents of an entity are listed in ascending order.
            uids = self.uids()
            with Store({uids[0]: uids}, Mode.ASSUME) as sorter:
                return "".join([self.entity_text(uid) + "\n" for uid in sorter.parents(uids[0])])

    def to_dot(self) -> str:
        """Returns the hierarchy as text for Graphviz, in the form of the package in Rust.

        There is a box for each entity, in a box of its type, and an arrow to each parent. A parent without an entity is
        dotted. Equal stores have equal texts.

        >>> print(Store({'User::"alice"': ['Group::"staff"']}).to_dot())
        digraph store {
          rankdir=BT;
          node [shape=box];
          subgraph "cluster User" {
            label="User";
            "User::\\"alice\\"" [label="alice"];
          }
          "Group::\\"staff\\"" [style=dotted];
          "User::\\"alice\\"" -> "Group::\\"staff\\"";
        }
        <BLANKLINE>
        """
        with self._group.lock:
            parents_by_uid = [(uid, self.parents(uid)) for uid in self.uids()]
        return to_dot(parents_by_uid)

    def __repr__(self) -> str:
        """Returns the number of entities. Raises no exception."""
        return f"<Store of {len(self)} entities>" if self._handle.is_open else "<Store, closed>"

    def __reduce__(self) -> Tuple[Any, ...]:
        """Pickles the entities, a mode that computes their ancestors or takes them as they are, and whether the store
        is partial. The unpickled store has a key of its own.
        """
        with self._group.lock:
            entities, mode = self._build_arguments()
            return _rebuilt, (type(self), entities, mode, self.is_partial())

    def _build_arguments(self) -> Tuple[Entities, int]:
        """Returns entities and a mode that rebuild this store. Rebuilds the store to check them."""
        uids = self._call_for_texts(_uids)
        entities: Entities = self._parents_by_uid(uids)
        if any(self.attrs_len(uid) or self.tags_len(uid) for uid in uids):
            entities = [self._read_entity(uid) for uid in uids]
        for mode in (Mode.COMPUTE, Mode.ASSUME):
            if self._is_built_from(entities, mode):
                return entities, int(mode)
        return [self._read_entity(uid, self.indirect_ancestors(uid)) for uid in uids], int(Mode.ASSUME)

    def _parents_by_uid(self, uids: List[str]) -> Dict[str, List[str]]:
        # Equal texts become one object, which is pickled once.
        texts = dict(zip(uids, uids))
        return {uid: [texts.setdefault(text, text) for text in self._texts_of(_parents, uid)] for uid in uids}

    def _is_built_from(self, entities: Entities, mode: int) -> bool:
        try:
            with _rebuilt(Store, entities, mode, self.is_partial()) as rebuilt:
                return rebuilt == self
        except CedarError:
            return False

    def validate(self) -> None:
        """Checks the store, and raises the first fault.

        Checks the ancestors first, as `Mode.ENFORCE` does. Then it reports the fault of the entity with the least uid.

        Raises:
            Cycle, MissingAncestor: the ancestors are not closed.
            SelfAncestor, DuplicateAncestor, InvalidActionParent, ReservedKey: an entity is invalid.

        >>> Store([Entity('User::"alice"', attrs={"home": {"__entity": 1}})]).validate()
        Traceback (most recent call last):
        cedar_store.ReservedKey: reserved key __entity
        """
        self._call(_validate)

    def slice(self: _Self, uids: Iterable[str]) -> _Self:
        """Returns a store of the entities with these uids and of all their ancestors that are in the store.

        The slice shares its entities with this store, and has the same key and the same lock.

        Raises:
            NotAUid: a text is not a uid.

        >>> store = Store({'User::"alice"': ['Group::"staff"'], 'Group::"staff"': [], 'User::"bob"': []})
        >>> len(store.slice(['User::"alice"', 'Action::"view"']))
        2
        """
        uid_list = UidList(list_of_texts(uids))
        return self._fill(self._closed(self._group), _slice, *uid_list.arguments(), uids=uid_list)

    def slice_deep_copy(self: _Self, uids: Iterable[str]) -> _Self:
        """Returns a deep copy of `slice`. It shares nothing with this store, so both can be used in parallel.

        Raises:
            NotAUid: a text is not a uid.

        >>> len(Store({'User::"alice"': []}).slice_deep_copy(['User::"alice"']))
        1
        """
        uid_list = UidList(list_of_texts(uids))
        return self._fill(self._closed(Group()), _slice_deep_copy, *uid_list.arguments(), uids=uid_list)


def _rebuilt(store_type: Type[_Self], entities: Entities, mode: int, is_partial: bool) -> _Self:
    """Returns a store of entities, for `pickle`. Does not call the `__init__` of a subclass."""
    store: _Self = store_type._closed(Group())
    Store.__init__(store, entities, mode)
    if is_partial:
        store.partial()
    return store
