"""Entities with their attributes, tags and indirect ancestors, encoded for the library."""
from __future__ import annotations

import dataclasses
from array import array
from typing import Any, ClassVar, Dict, Iterable, List, Mapping, Protocol, Tuple, Union

from ._entity import Entity
from ._errors import NOT_A_UID
from ._library import UidList, encode_edges
from ._uids import EntityUid
from .values import Encoder


class EntityFields(Protocol):
    """A dataclass instance with a field `uid`: see `Entity.from_dataclass`."""

    __dataclass_fields__: ClassVar[Any]

    @property
    def uid(self) -> str:
        """Returns the uid of the entity."""


# Entities as arguments: uids with their parents, `Entity` objects, or instances of dataclasses.
Entities = Union[
    Mapping[str, Iterable[str]],
    Mapping[EntityUid, Iterable[str]],
    Iterable[Union[Tuple[str, Iterable[str]], Entity, EntityFields]],
]


class Content(UidList):
    """Entities, encoded as one text and lists of spans in it. It must live until the call returns."""

    __slots__ = ("count_of_entities", "_encoder", "_content", "_terms", "_nodes", "_parent_edges", "_indirect_edges")

    def __init__(self, entities: List[Entity]) -> None:
        self.count_of_entities = len(entities)
        uids: List[str] = [entity.uid for entity in entities]
        indices: Dict[str, int] = {}
        for index, uid in enumerate(uids):
            indices.setdefault(uid, index)
        parents: List[int] = []
        indirect: List[int] = []
        for child_index, entity in enumerate(entities):
            for ancestors, edges in ((entity.parents, parents), (entity.indirect_ancestors, indirect)):
                for uid in ancestors:
                    index = indices.setdefault(uid, len(uids))
                    if index == len(uids):
                        uids.append(uid)
                    edges += (child_index, index)
        super().__init__(uids)
        encoder = Encoder(self.text)
        terms: List[int] = []
        span, encode_term = encoder.span, encoder.term
        for index, entity in enumerate(entities):
            for part, fields in ((0, entity.attrs), (1, entity.tags)):
                for key, term in fields.items():
                    terms += (index, part, *span(key), *encode_term(term))
        self._encoder, self._content = encoder, bytes(encoder.text)
        self._terms, self._nodes = array("Q", terms or (0,)), encoder.packed()
        self._parent_edges, self._indirect_edges = encode_edges(parents), encode_edges(indirect)

    def call_arguments(self) -> Tuple[object, ...]:
        """Returns the arguments of the call between the handle and the mode."""
        _, _, spans, uids_len = self.arguments()
        arguments = [self._content, len(self._content), spans, uids_len, self.count_of_entities]
        for numbers, size in ((self._parent_edges, 2), (self._indirect_edges, 2), (self._terms, 6), (self._nodes, 5)):
            address, length = numbers.buffer_info()
            arguments += (address, length // size)
        return tuple(arguments)

    def names_of(self, status: int) -> Tuple[str, ...]:
        """Returns the text of a value that is not what a status requires."""
        return self._encoder.first_invalid(status) if status >= NOT_A_UID else ()


def _parents_list(parents: Iterable[str]) -> Iterable[str]:
    if isinstance(parents, str):
        raise TypeError(f"expected a list of parents, got one text: {parents!r}")
    return parents


def as_pair(item: Any) -> Tuple[str, Iterable[str]]:
    """Returns an item of a list of entities as a uid with its parents."""
    if isinstance(item, (tuple, list)) and len(item) == 2:
        return item[0], item[1]
    raise TypeError(f"expected an Entity, a dataclass with a uid, or a pair of a uid and its parents, got {item!r}")


def as_entity(item: Any) -> Entity:
    """Returns an item of a list of entities as an `Entity`."""
    if isinstance(item, Entity):
        return item
    if dataclasses.is_dataclass(item):
        return Entity.from_dataclass(item)
    return Entity(*as_pair(item))


def encode_pairs(pairs: Iterable[Tuple[str, Iterable[str]]]) -> Tuple[UidList, int, List[int]]:
    """Encodes entities as a list of uids, their number, and edges. The uids of the entities come before their other
    parents.
    """
    uids: List[str] = []
    parent_lists: List[Iterable[str]] = []
    for uid, parents in pairs:
        uids.append(uid)
        parent_lists.append(parents)
    count = len(uids)
    uid_indices = dict(zip(uids, range(count)))
    edges: List[int] = []
    append = edges.append
    for child_index, parents in enumerate(parent_lists):
        for parent in _parents_list(parents):
            index = uid_indices.get(parent)
            if index is None:
                index = uid_indices[parent] = len(uids)
                uids.append(parent)
            append(child_index)
            append(index)
    return UidList(uids), count, edges
