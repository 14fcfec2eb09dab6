"""The hot tenants of one process, in memory.

A cached tenant can be used for one second after the server was asked for its version. A task asks for the versions of
all cached tenants five times a second. A notification of PostgreSQL makes a changed tenant outdated immediately. So the
notifications make the cache fast, and the lease makes it safe: without them a change is seen within a second.
"""
from __future__ import annotations

import asyncio
import collections
import contextlib
import time
from typing import Any, Optional

import psycopg
from cedar_store import Policies, Store

from .encoding import LongTexts, edit_policies
from .errors import DatabaseError
from .pool import Connection, connect
from .tenant import Rows, View, build_contents

LEASE_SECONDS = 1.0
BEAT_SECONDS = 0.2


class CachedTenant:
    """A tenant in memory. It has no store if its entities need more memory than one tenant may take."""

    def __init__(self, rows: Rows, store: Optional[Store], policies: Policies, bytes: int, asked_at: float) -> None:
        self.version, self.mode, self.is_partial, self.bytes = rows.version, rows.mode, rows.is_partial, bytes
        self.store, self.policies = store, policies
        # An equal set for the next draft. A copy of a set takes as long as the set is large, an edit of it does not.
        self._spare: Optional[Policies] = None
        self.valid_until, self.last_known = asked_at + LEASE_SECONDS, rows.version
        self.view = self._make_view()

    def _make_view(self) -> Optional[View]:
        return None if self.store is None else View(self.version, self.store, self.policies, None)

    @property
    def is_outdated(self) -> bool:
        """Returns whether a later version is known to exist."""
        return self.version < self.last_known

    def learn(self, version: int) -> None:
        """Records that this version exists."""
        self.last_known = max(self.last_known, version)

    def confirm(self, version: int, asked_at: float) -> None:
        """Records that a server had this version when it was asked."""
        self.learn(version)
        if version == self.version:
            self.valid_until = max(self.valid_until, asked_at + LEASE_SECONDS)

    def is_fresh(self, token: int) -> bool:
        """Returns whether the tenant may be used without asking a server."""
        return self.version >= token and self.version >= self.last_known and time.monotonic() < self.valid_until

    def edit(self, rows: Rows, asked_at: float) -> None:
        """Brings the tenant to the version of an incremental read."""
        for policies in (self.policies, self._spare):
            if policies is not None:
                rows.edit_policies(policies)
        if self.store is not None:
            rows.edit_store(self.store)
            self.bytes += rows.bytes  # too many, if entities were replaced or removed
        self._set_version(rows.version, asked_at)

    def copy_policies(self) -> Policies:
        """Returns a copy of the policy set, for a draft."""
        spare, self._spare = self._spare, None
        return self.policies.copy() if spare is None else spare

    def adopt(self, version: int, policies: Policies, payload: dict[str, Any], asked_at: float) -> None:
        """Records that a draft, which changed only policies, made this version."""
        if version != self.version + 1:
            self.learn(version)
            return
        edit_policies(self.policies, payload["removed_ids"], payload["policies"], LongTexts(payload["texts"]))
        self.policies, self._spare = policies, self.policies
        self._set_version(version, asked_at)

    def _set_version(self, version: int, asked_at: float) -> None:
        self.version, self.valid_until = version, asked_at + LEASE_SECONDS
        self.learn(version)
        self.view = self._make_view()


class Cache:
    """Tenants in memory, up to a number of bytes. The least recently used tenant is dropped first."""

    def __init__(self, max_bytes: int) -> None:
        self.max_bytes, self.bytes = max_bytes, 0
        self._tenants: collections.OrderedDict[int, CachedTenant] = collections.OrderedDict()

    def get(self, tenant: int) -> Optional[CachedTenant]:
        """Returns a cached tenant, fresh or not."""
        return self._tenants.get(tenant)

    def view(self, tenant: int, token: int) -> Optional[View]:
        """Returns the view of a fresh tenant, or None."""
        cached = self._tenants.get(tenant)
        if cached is None or not cached.is_fresh(token):
            return None
        self._tenants.move_to_end(tenant)
        return cached.view

    def tenants(self) -> list[int]:
        """Returns the numbers of all cached tenants."""
        return list(self._tenants)

    def insert(self, tenant: int, cached: CachedTenant) -> None:
        """Inserts a tenant, and drops others that no longer fit. Their stores are freed with the last view of them."""
        self.drop(tenant)
        self._tenants[tenant] = cached
        self.bytes += cached.bytes
        while self.bytes > self.max_bytes and len(self._tenants) > 1:
            self.drop(next(iter(self._tenants)))

    def drop(self, tenant: int) -> None:
        """Drops a tenant, if it is cached."""
        cached = self._tenants.pop(tenant, None)
        if cached is not None:
            self.bytes -= cached.bytes

    async def load(self, tenant: int, rows: Rows, is_too_large: bool, asked_at: float) -> CachedTenant:
        """Builds a tenant from a complete read, and inserts it."""
        store, policies = await build_contents(rows, has_entities=not is_too_large)
        assert policies is not None
        bytes = len(rows.policies) * 1000 if is_too_large else rows.bytes
        cached = CachedTenant(rows, store, policies, bytes, asked_at)
        self.insert(tenant, cached)
        return cached

    def edit(self, tenant: int, cached: CachedTenant, rows: Rows, asked_at: float) -> None:
        """Brings a cached tenant to the version of an incremental read. Drops it if that fails."""
        before = cached.bytes
        try:
            cached.edit(rows, asked_at)
        except BaseException:
            if self._tenants.get(tenant) is cached:
                self.drop(tenant)
            raise
        if self._tenants.get(tenant) is cached:
            self.bytes += cached.bytes - before


class Listener:
    """A task that keeps the versions of cached tenants confirmed, over a connection of its own.

    A replica does not support LISTEN. Then only the questions find changes.
    """

    def __init__(self, cache: Cache, dsns: list[str], is_listening: bool = True) -> None:
        self._cache, self._dsns, self._is_listening = cache, dsns, is_listening
        self._task: Optional[asyncio.Task[None]] = None

    def start(self) -> None:
        """Starts the task."""
        self._task = asyncio.create_task(self._run(), name="cedar-listener")

    async def stop(self) -> None:
        """Stops the task."""
        if self._task is not None:
            self._task.cancel()
            with contextlib.suppress(asyncio.CancelledError):
                await self._task

    async def _run(self) -> None:
        while True:
            for number, dsn in enumerate(self._dsns):
                with contextlib.suppress(psycopg.Error, OSError, DatabaseError):
                    # A later server only bridges the time until the first one can be reached again.
                    await self._follow(dsn, time.monotonic() + (2.0 if number else 1e9))
            await asyncio.sleep(0.1)

    async def _follow(self, dsn: str, until: float) -> None:
        """Asks one server for versions until a time, or until its connection fails."""
        connection = await connect(dsn)
        try:
            connection.add_notify_handler(lambda notify: self._receive(notify.payload))
            if self._is_listening:
                with contextlib.suppress(
                    psycopg.errors.FeatureNotSupported,
                    psycopg.errors.ReadOnlySqlTransaction,
                    psycopg.errors.ObjectNotInPrerequisiteState,
                ):
                    async with asyncio.timeout(LEASE_SECONDS):
                        await connection.execute("LISTEN cedar")
            while time.monotonic() < until:
                await self._ask(connection)
                await self._wait(connection, time.monotonic() + BEAT_SECONDS)
        finally:
            await connection.close()

    async def _ask(self, connection: Connection) -> None:
        asked_at, tenants = time.monotonic(), self._cache.tenants()
        async with asyncio.timeout(LEASE_SECONDS):
            cursor = await connection.execute("SELECT * FROM cedar.versions(%s::bigint[])", (tenants,))
            for tenant, version in await cursor.fetchall():
                cached = self._cache.get(tenant)
                if cached is not None:
                    cached.confirm(version, asked_at)

    async def _wait(self, connection: Connection, until: float) -> None:
        """Receives notifications until a time."""
        loop, readable, descriptor = asyncio.get_running_loop(), asyncio.Event(), connection.fileno()
        loop.add_reader(descriptor, readable.set)
        try:
            while True:
                async with asyncio.timeout_at(loop.time() + until - time.monotonic()):
                    await readable.wait()
                readable.clear()
                connection.pgconn.consume_input()
                for payload in iter(lambda: _next_payload(connection), None):
                    self._receive(payload)
        except TimeoutError:
            pass
        finally:
            loop.remove_reader(descriptor)

    def _receive(self, payload: str) -> None:
        """Learns from the payload of a notification: a tenant and its version, which is 0 if it was deleted."""
        tenant, version = map(int, payload.split())
        cached = self._cache.get(tenant)
        if version == 0:
            self._cache.drop(tenant)
        elif cached is not None:
            cached.learn(version)


def _next_payload(connection: Connection) -> Optional[str]:
    notify = connection.pgconn.notifies()
    return None if notify is None else notify.extra.decode()
