"""The adapter: tenants of one server, or of one group of a primary and its replicas."""
from __future__ import annotations

import asyncio
import inspect
import time
import uuid
import weakref
from typing import Any, Awaitable, Callable, Iterable, NamedTuple, Optional, Union

from cedar_store import Entity, Mode, Policies, Store
from psycopg.types.json import Jsonb

from .cache import Cache, CachedTenant, Listener
from .changes import Draft
from .errors import Behind, Conflict, DatabaseError, Moving, NoTenant, OutdatedSchema, Retry, Unavailable, Unprotected
from .migrations import required_number
from .pool import Connection, Pool
from .tenant import Rows, View, build_contents, read_tenant

_ATTEMPTS = 8
# From this attempt on, a change takes the row of its tenant before it reads, so that no other change can be first.
_FIRST_LOCKING_ATTEMPT = 2
_MIN_BYTES_OF_ENTITY = 500

Change = Callable[[Draft], Union[Any, Awaitable[Any]]]


class Applied(NamedTuple):
    """An applied change: the version that it made, which is the token of later reads, and the result of its function.

    The result is None if the change was applied by an earlier call with the same key.
    """

    token: int
    result: Any = None


class _Outdated(Exception):
    """The base of a draft is not the last version."""


class Database:
    """Tenants in a database with the schema `cedar`.

    `dsn` leads to the server that writes, or to several hosts with `target_session_attrs=read-write`. `reads` leads to
    any server. Without it, reads use `dsn` too. `listen` leads past a pooler, because a pooler that shares sessions
    between transactions does not support LISTEN.

    All methods belong to the event loop that opened the database.

    Raises:
        DatabaseError: the subclass says what to do (see `errors`). Every method can raise it.
        CedarError: the library rejected the caller's change.
    """

    def __init__(
        self,
        dsn: str,
        *,
        reads: Optional[str] = None,
        listen: Optional[str] = None,
        max_bytes: int = 512 << 20,
        pool_size: int = 8,
        statement_seconds: float = 5.0,
        patience_seconds: float = 3.0,
    ) -> None:
        self._primary = Pool(dsn, pool_size, statement_seconds)
        self._pools = [self._primary] if reads is None else [Pool(reads, pool_size, statement_seconds), self._primary]
        self.cache, self._patience = Cache(max_bytes), patience_seconds
        self._max_tenant_bytes = max_bytes // 4
        self._listener = Listener(self.cache, [listen or dsn, *([] if reads is None else [reads])])
        self._read_locks: weakref.WeakValueDictionary[int, asyncio.Lock] = weakref.WeakValueDictionary()
        self._change_locks: weakref.WeakValueDictionary[int, asyncio.Lock] = weakref.WeakValueDictionary()
        self.conflicts = 0  # the number of attempts at a change that another change preceded

    async def open(self, allow_superuser: bool = False) -> Database:
        """Opens the pools, and checks the schema and the role.

        Raises:
            OutdatedSchema: a migration is missing.
            Unprotected: row-level security does not apply to the role, and `allow_superuser` is False.
        """
        for pool in self._pools:
            await pool.open()
        try:
            number, bypasses = await self._read_schema_and_role()
            if number is None or number < required_number():
                raise OutdatedSchema(f"the schema has migration {number}, this library needs {required_number()}")
            if bypasses and not allow_superuser:
                raise Unprotected("row-level security does not apply to this role: use a member of cedar_service")
        except BaseException:
            await self.close()
            raise
        self._listener.start()
        return self

    async def _read_schema_and_role(self) -> tuple[Optional[int], bool]:
        """Returns the number of the last migration, and whether the role passes row-level security."""
        error: DatabaseError = Unavailable("no server")
        for pool in reversed(self._pools):
            try:
                ((number, bypasses),) = await pool.run(
                    "SELECT (SELECT max(number) FROM cedar.migrations), rolsuper OR rolbypassrls FROM pg_roles "
                    "WHERE rolname = current_user"
                )
                return number, bypasses
            except Unavailable as failure:
                error = failure
        raise error

    async def close(self) -> None:
        """Closes all connections."""
        await self._listener.stop()
        for pool in self._pools:
            await pool.close()

    async def __aenter__(self) -> Database:
        return await self.open()

    async def __aexit__(self, *_: object) -> None:
        await self.close()

    async def create_tenant(self, tenant: int, mode: Mode = Mode.COMPUTE, is_partial: bool = False) -> bool:
        """Creates a tenant. Returns False if it exists.

        All changes of its entities have the mode (see `cedar_store.Mode`).
        """
        ((is_new,),) = await self._primary.run_repeatedly(
            "SELECT cedar.create_tenant(%s::bigint, %s, %s)",
            (tenant, Mode(mode).name.lower(), is_partial),
            self._patience,
        )
        return bool(is_new)

    async def drop_tenant(self, tenant: int) -> bool:
        """Deletes a tenant with everything it has. Returns False if it does not exist."""
        self.cache.drop(tenant)
        ((existed,),) = await self._primary.run_repeatedly(
            "SELECT cedar.drop_tenant(%s::bigint)", (tenant,), self._patience
        )
        return bool(existed)

    def cached_view(self, tenant: int, token: int = 0) -> Optional[View]:
        """Returns the view of a tenant if it is in memory and fresh, otherwise None."""
        return self.cache.view(tenant, token)

    async def view(self, tenant: int, uids: Iterable[str] = (), token: int = 0) -> View:
        """Returns the state of a tenant, at most one second old, and at least at the version `token`.

        If the tenant is too large for the memory, the view has only the slice at `uids`: these entities and all their
        ancestors.

        Raises:
            NoTenant: the server has no such tenant.
            Moving: the tenant is being moved to another server.
            Behind: no server that can be reached has the version of the token.
            InvalidRows: the library rejects the rows of the tables.
        """
        view = self.cache.view(tenant, token)
        if view is not None:
            return view
        requested = list(uids)
        deadline = time.monotonic() + self._patience
        while True:
            try:
                return await self._read_view(tenant, requested, token)
            except (Unavailable, Behind) as error:
                if time.monotonic() > deadline or isinstance(error, Unavailable) and not error.is_connection_lost:
                    raise
            await asyncio.sleep(0.02)

    async def _read_view(self, tenant: int, uids: list[str], token: int) -> View:
        cached = await self._cached_tenant(tenant, token)
        if cached.view is not None:
            return cached.view
        error: DatabaseError = Behind(f"no server has version {token} of tenant {tenant}")
        # A replica may be behind a version that is known. It is used if the primary cannot be reached.
        for pool, version in [
            *((pool, max(token, cached.last_known)) for pool in self._pools),
            (self._pools[0], token),
        ]:
            try:
                return await self._read_slice(pool, tenant, uids, version)
            except (Unavailable, Behind) as failure:
                error = failure
        raise error

    async def _read_slice(self, pool: Pool, tenant: int, uids: list[str], token: int) -> View:
        """Reads the slice at some uids, and the changes of policies up to its version."""
        while True:
            cached = self.cache.get(tenant) or await self._cached_tenant(tenant, token)
            since, asked_at = cached.version, time.monotonic()
            rows = await read_tenant(pool, tenant, since, uids)
            if rows.version < max(token, since):
                raise Behind(f"the server has version {rows.version} of tenant {tenant}")
            if cached.version != since:
                continue  # another task has refreshed it meanwhile
            if rows.is_complete:
                self.cache.drop(tenant)
                continue
            store = (await build_contents(rows, has_policies=False)).store
            if cached.version != since:
                continue
            assert store is not None
            if rows.mode is not Mode.COMPUTE:
                store = store.slice(uids)
            self.cache.edit(tenant, cached, rows, asked_at)
            return View(rows.version, store, cached.policies, uids)

    async def _cached_tenant(self, tenant: int, token: int) -> CachedTenant:
        """Returns the cached tenant, and reads it first unless it is fresh. Many callers wait for one read."""
        async with self._read_locks.setdefault(tenant, asyncio.Lock()):
            cached = self.cache.get(tenant)
            if cached is not None and cached.is_fresh(token):
                return cached
            error: DatabaseError = Behind(f"no server has version {token} of tenant {tenant}")
            for pool in self._pools:
                try:
                    cached = await self._refresh(pool, tenant)
                    if cached.version >= max(token, cached.last_known):
                        return cached
                except Unavailable as failure:
                    error = failure
                except (NoTenant, Moving):
                    # A replica may not have a new tenant yet.
                    if pool is self._primary:
                        self.cache.drop(tenant)
                        raise
            # The primary cannot be reached, and a replica is behind.
            if len(self._pools) > 1 and cached is not None and cached.version >= token:
                return cached
            raise error

    async def _refresh(self, pool: Pool, tenant: int, on: Optional[Connection] = None) -> CachedTenant:
        """Reads what changed since the cached version, or everything."""
        while True:
            cached, asked_at = self.cache.get(tenant), time.monotonic()
            since = None if cached is None else cached.version
            # A read with `uids` has no entities without `uids`, which a tenant without a store does not need.
            uids: Optional[list[str]] = [] if cached is not None and cached.store is None else None
            rows = await read_tenant(pool, tenant, since, uids, self._max_tenant_bytes // _MIN_BYTES_OF_ENTITY, on)
            if cached is not None and (cached.version != since or self.cache.get(tenant) is not cached):
                continue  # another task has changed it meanwhile
            if cached is None or rows.is_complete:
                if uids is not None:
                    self.cache.drop(tenant)
                    continue
                return await self.cache.load(tenant, rows, self._is_too_large(rows), asked_at)
            if rows.version >= cached.version:
                self.cache.edit(tenant, cached, rows, asked_at)
            return cached

    def _is_too_large(self, rows: Rows) -> bool:
        return (
            rows.bytes > self._max_tenant_bytes or len(rows.entities) >= self._max_tenant_bytes // _MIN_BYTES_OF_ENTITY
        )

    async def change(self, tenant: int, function: Change, *, key: Optional[str] = None) -> Applied:
        """Makes a change of a tenant, in one transaction. Other changes cannot come between.

        `function` gets a `Draft`, and edits it. It may be called several times, each time with a new draft of the last
        version. If it raises an exception, nothing is written.

        `key` identifies the change. A change with the key of one of the last 1,000 changes of the tenant is not applied
        again. Without a key each call is a change of its own.

        Raises:
            CedarError: the library rejected an edit.
            Conflict: other changes were first at each attempt.
            Unavailable: no server can write now. If `may_be_written`, repeat the call with the same key.
        """
        may_be_applied, attempt, results = key is not None, 0, [None]
        key, deadline = key or uuid.uuid4().hex, time.monotonic() + self._patience

        async def edit(draft: Draft) -> None:
            result = function(draft)
            results[0] = await result if inspect.isawaitable(result) else result

        async with self._change_locks.setdefault(tenant, asyncio.Lock()):
            while attempt < _ATTEMPTS:
                try:
                    version = await self._version_of(tenant, key) if may_be_applied else None
                    if version is None:
                        version = await self._attempt(tenant, edit, key, attempt >= _FIRST_LOCKING_ATTEMPT)
                    if version is not None:
                        return Applied(version, results[0])
                    attempt += 1
                except Moving:
                    raise
                except Unavailable as error:
                    may_be_applied = may_be_applied or error.may_be_written
                    if time.monotonic() > deadline or not error.is_connection_lost:
                        error.may_be_written = may_be_applied
                        raise
                    await asyncio.sleep(0.05)
                except Retry:
                    if time.monotonic() > deadline:
                        raise
                    await asyncio.sleep(0.05)
        raise Conflict(f"other changes of tenant {tenant} were first at each of {_ATTEMPTS} attempts")

    async def _version_of(self, tenant: int, key: str) -> Optional[int]:
        """Returns the version that the change with this key made, or None."""
        ((version,),) = await self._primary.run("SELECT cedar.version_of(%s::bigint, %s)", (tenant, key))
        return None if version is None else int(version)

    async def _attempt(
        self, tenant: int, edit: Callable[[Draft], Awaitable[None]], key: str, is_locking: bool
    ) -> Optional[int]:
        """Makes a change once. Returns its version, or None if another change was first."""
        if not is_locking:
            return await self._attempt_on(None, tenant, edit, key)
        version: Optional[int] = None
        async with self._primary.connection() as connection, connection.transaction():
            await self._primary.run("SELECT cedar.lock_tenant(%s::bigint)", (tenant,), on=connection)
            version = await self._attempt_on(connection, tenant, edit, key)
        return version

    async def _attempt_on(
        self,
        connection: Optional[Connection],
        tenant: int,
        edit: Callable[[Draft], Awaitable[None]],
        key: str,
    ) -> Optional[int]:
        cached = self.cache.get(tenant)
        if cached is None or cached.is_outdated or connection is not None:
            async with self._read_locks.setdefault(tenant, asyncio.Lock()):
                cached = await self._refresh(self._primary, tenant, connection)
        draft = Draft(
            cached.version,
            cached.mode,
            cached.policies,
            cached.copy_policies,
            self._slice_of(tenant, cached, connection),
        )
        try:
            await edit(draft)
        except _Outdated:
            self.conflicts += 1
            return None
        payload = draft.payload()
        if payload is None:
            return draft.version
        return await self._write(connection, tenant, cached, draft, key, payload)

    async def _write(
        self,
        connection: Optional[Connection],
        tenant: int,
        cached: CachedTenant,
        draft: Draft,
        key: str,
        payload: dict[str, Any],
    ) -> Optional[int]:
        """Writes a draft. Returns its version, or None if another change was first."""
        asked_at = time.monotonic()
        seconds = self._primary.statement_seconds + (len(payload["entities"]) + len(payload["policies"])) / 1000
        rows = await self._primary.run(
            "SELECT outcome, version FROM cedar.apply(%s::bigint, %s::bigint, %s, %s)",
            (tenant, draft.version, key, Jsonb(payload)),
            on=connection,
            seconds=seconds,
        )
        ((outcome, version),) = rows
        if outcome == "missing":
            self.cache.drop(tenant)
            raise NoTenant(f"this server has no tenant {tenant}")
        if outcome == "leaving":
            raise Moving(f"tenant {tenant} is being moved to another server")
        has_entities = payload["entities"] or payload["repaired"] or payload["removed"]
        if outcome == "done" and not has_entities:
            cached.adopt(version, draft.policies, payload, asked_at)
        else:
            cached.learn(version)
        self.conflicts += outcome == "conflict"
        return None if outcome == "conflict" else int(version)

    def _slice_of(
        self, tenant: int, cached: CachedTenant, connection: Optional[Connection]
    ) -> Callable[[Optional[list[str]]], Awaitable[Store]]:
        """Returns a function that returns slices of the version of a draft."""
        version = cached.version

        async def slice(uids: Optional[list[str]]) -> Store:
            if cached.version != version:
                raise _Outdated
            if cached.store is not None:
                return cached.store.copy() if uids is None else cached.store.slice(uids)
            since = None if uids is None else version
            rows = await read_tenant(self._primary, tenant, since, uids, on=connection)
            if rows.version != version:
                cached.learn(rows.version)
                raise _Outdated
            store = (await build_contents(rows, has_policies=False)).store
            assert store is not None
            return store

        return slice

    async def import_tenant(
        self, tenant: int, store: Store, policies: Policies, mode: Optional[Mode] = None
    ) -> Applied:
        """Creates a tenant with the contents of a store and a policy set.

        Without a mode, it is computed if the ancestors follow from the parents. Otherwise its mode is `ASSUME`.

        Raises:
            Conflict: the tenant exists.
        """
        entities = [entity for uid in store.uids() if isinstance(entity := store.entity(uid), Entity)]
        if mode is None:
            with Store(
                [Entity(item.uid, item.parents, attrs=item.attrs, tags=item.tags) for item in entities]
            ) as other:
                if store.is_partial():
                    other.partial()
                mode = Mode.COMPUTE if other == store else Mode.ASSUME
        if not await self.create_tenant(tenant, mode, store.is_partial()):
            raise Conflict(f"tenant {tenant} exists")

        async def insert(draft: Draft) -> None:
            await draft.upsert(entities)
            draft.merge(policies)

        return await self.change(tenant, insert)
