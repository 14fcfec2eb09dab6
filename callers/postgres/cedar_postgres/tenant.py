"""What the tables have of one tenant: the result of a read, and the store and the policy set that are built from it."""
from __future__ import annotations

import asyncio
import itertools
import json
import re
from typing import Any, Iterable, NamedTuple, Optional

from cedar_store import CedarError, Entity, EntityUid, Mode, Policies, Store, is_uid

from .encoding import LongTexts, decode_entity, edit_policies
from .errors import InvalidRows, Moving, NoTenant, NotInSlice
from .pool import Connection, Pool

# More rows than this are decoded and built in another thread.
_MAX_INLINE_ROWS = 2000
# An edit of this many entities makes the library list the children of all entities of a large store.
_LISTING_EDIT = 64
_LONG_KEYS = re.compile(r"\\u0002[0-9a-f]{64}")

# The memory for an entity without attributes, for attributes, for a policy, and for each byte of JSON, in bytes.
# Attributes are a tree whose nodes have room for eleven.
_ENTITY_BYTES, _ATTRIBUTES_BYTES, _POLICY_BYTES, _BYTES_OF_JSON = 600, 1500, 400, 3
_NO_ATTRIBUTES = "{}, {}]"


class Rows:
    """The result of one read: the tenant, and rows that are not decoded yet."""

    def __init__(self, rows: list[tuple[Any, ...]], texts: LongTexts) -> None:
        parts: dict[str, list[str]] = {"tenant": [], "changed": [], "policy": [], "entity": []}
        for part, content in rows:
            parts[part].append(content)
        tenant = json.loads(parts["tenant"][0])
        self.version: int = tenant["version"]
        self.is_here: bool = tenant["state"] == "here"
        self.mode, self.is_partial = Mode[tenant["mode"].upper()], bool(tenant["is_partial"])
        self.is_complete: bool = tenant["complete"]
        self.changed: dict[str, list[str]] = json.loads(parts["changed"][0]) if parts["changed"] else {}
        self.policies, self.entities, self.texts = parts["policy"], parts["entity"], texts

    def __len__(self) -> int:
        return len(self.policies) + len(self.entities)

    @property
    def bytes(self) -> int:
        """Returns an estimate of the memory for the entities and policies, in bytes."""
        json_length = sum(map(len, self.policies)) + sum(map(len, self.entities))
        with_attributes = sum([not row.endswith(_NO_ATTRIBUTES) for row in self.entities])
        fixed = (
            _ENTITY_BYTES * len(self.entities)
            + _ATTRIBUTES_BYTES * with_attributes
            + _POLICY_BYTES * len(self.policies)
        )
        return fixed + _BYTES_OF_JSON * json_length

    def _texts_of(self, keys: Iterable[str]) -> list[str]:
        return list(map(self.texts.text, keys))

    def build_store(self) -> Store:
        """Builds a store of the entities."""
        entities = [decode_entity(json.loads(row), self.texts) for row in self.entities]
        mode = Mode.COMPUTE if self.mode is Mode.COMPUTE else Mode.ASSUME
        leaves = _some_leaves(entities) if mode is Mode.COMPUTE and len(entities) > _MAX_INLINE_ROWS else {}
        store = Store([entity for entity in entities if entity.uid not in leaves], mode)
        if leaves:
            # Without the list of children, each of the next edits would scan the store for affected entities.
            store.add(list(leaves.values()), mode)
        if self.is_partial:
            store.partial()
        return store

    def edit_store(self, store: Store) -> None:
        """Brings a computed store to the version of this read."""
        removed = self._texts_of(self.changed.get("removed", ()))
        if removed:
            # The removal of a uid without an entity would not remove the uid from the parents of other entities.
            store.upsert([(uid, ()) for uid in removed if uid not in store])
            store.remove(removed)
        if self.entities:
            store.upsert([decode_entity(json.loads(row), self.texts) for row in self.entities])

    def build_policies(self) -> Policies:
        """Builds a set of the policies."""
        policies = Policies()
        self.edit_policies(policies)
        return policies

    def edit_policies(self, policies: Policies) -> None:
        """Brings a set to the version of this read."""
        edit_policies(policies, self.changed.get("ids", ()), map(json.loads, self.policies), self.texts)


def _some_leaves(entities: list[Entity]) -> dict[EntityUid, Entity]:
    """Returns entities that are no parents, by uid: as many as an edit must have to list the children of a store."""
    parents = {parent for entity in entities for parent in entity.parents}
    leaves = (entity for entity in entities if entity.uid not in parents)
    return {entity.uid: entity for entity in itertools.islice(leaves, _LISTING_EDIT)}


async def read_tenant(
    pool: Pool,
    tenant: int,
    since: Optional[int] = None,
    uids: Optional[list[str]] = None,
    row_limit: Optional[int] = None,
    on: Optional[Connection] = None,
) -> Rows:
    """Reads a tenant in one statement: all of it, what changed after a version, or the slice at some uids.

    Raises:
        NoTenant: the tenant is not on the server.
        Moving: it is being moved to another server.
        DatabaseError: the server has failed.
    """
    keys = None if uids is None else list(map(LongTexts().key, uids))
    rows = await pool.run(
        "SELECT part, content::text FROM cedar.read(%s::bigint, %s::bigint, %s::text[], %s::bigint)",
        (tenant, since, keys, row_limit),
        on=on,
        seconds=pool.statement_seconds * (4 if since is None and uids is None else 1),
    )
    if not rows:
        raise NoTenant(f"this server has no tenant {tenant}")
    long_keys = {json.loads(f'"{key}"') for _, content in rows for key in _LONG_KEYS.findall(content)}
    texts = LongTexts()
    if long_keys:
        statement = "SELECT key, text FROM cedar.long_texts(%s::bigint, %s::text[])"
        found = await pool.run(statement, (tenant, list(long_keys)), on=on)
        texts = LongTexts({key: text for key, text in found})
    result = Rows(rows, texts)
    if not result.is_here:
        raise Moving(f"tenant {tenant} is being moved to another server")
    return result


class Contents(NamedTuple):
    """The store, if the entities were read, and the policy set of a tenant."""

    store: Optional[Store]
    policies: Optional[Policies]


async def build_contents(rows: Rows, has_entities: bool = True, has_policies: bool = True) -> Contents:
    """Builds what was read. Builds much of it in another thread, so that other tasks go on.

    Raises:
        InvalidRows: the library rejects the rows.
    """

    def build() -> Contents:
        try:
            return Contents(
                rows.build_store() if has_entities else None, rows.build_policies() if has_policies else None
            )
        except (CedarError, ValueError, KeyError, TypeError) as error:
            raise InvalidRows(f"the library rejects the rows of a tenant: {error}") from error

    if len(rows) <= _MAX_INLINE_ROWS:
        return build()
    return await asyncio.to_thread(build)


class View:
    """The state of a tenant at one version: a store of all its entities or of a slice, and its policy set.

    A later change of the tenant may change the store and the set of a view. So use a view before the next `await`, and
    do not close its store or its set.
    """

    __slots__ = ("version", "store", "policies", "_requested")

    def __init__(self, version: int, store: Store, policies: Policies, requested: Optional[Iterable[str]]) -> None:
        self.version, self.store, self.policies = version, store, policies
        self._requested = None if requested is None else frozenset(requested)

    @property
    def is_whole(self) -> bool:
        """Returns whether the store has all entities of the tenant."""
        return self._requested is None

    def is_descendant_of(self, child: str, ancestor: str) -> bool:
        """Returns whether the second uid is an ancestor of the first.

        Raises:
            CedarError: `no entity` if there is no entity with the first uid; `not a uid`.
            NotInSlice: the slice does not cover the first uid.
        """
        if self._requested is not None:
            self._check(child)
        return self.store.is_descendant_of(child, ancestor)

    def ancestors(self, uid: str) -> list[EntityUid]:
        """Returns the ancestors of an entity, in ascending order.

        Raises:
            CedarError: `no entity` if there is no entity with this uid; `not a uid`.
            NotInSlice: the slice does not cover the uid.
        """
        self._check(uid)
        return self.store.ancestors(uid)

    def entity(self, uid: str) -> Any:
        """Returns a snapshot of an entity, like `Store.entity`.

        Raises:
            CedarError: `not a uid`.
            NotInSlice: the slice does not cover the uid.
        """
        self._check(uid)
        return self.store.entity(uid)

    def __contains__(self, uid: str) -> bool:
        self._check(uid)
        return uid in self.store

    def _check(self, uid: str) -> None:
        """Raises `NotInSlice` if the slice does not cover the uid."""
        if self._requested is None or uid in self._requested or uid in self.store or not is_uid(uid):
            return
        if not any(uid in self.store.ancestors(requested) for requested in self._requested if requested in self.store):
            raise NotInSlice(f"cannot query {EntityUid(uid)}: the slice was not read for it")
