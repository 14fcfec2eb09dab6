"""Tenants of several servers, which a directory assigns."""
from __future__ import annotations

import asyncio
import time
from typing import Any, Awaitable, Callable, Iterable, Optional, Sequence, TypeVar

from cedar_store import Mode

from .database import Applied, Change, Database
from .errors import DatabaseError, Moving, NoTenant
from .pool import Pool, Rows
from .tenant import View

_Result = TypeVar("_Result")


class Cluster:
    """Tenants of all servers of a directory, with the methods of `Database`.

    `directory` is the connection string of the database that has the directory. Each server has the other
    options as its `Database`.

    The place of a tenant is kept in memory. An outdated place does no harm: the server reports that it does not have
    the tenant, and then the directory is read again.
    """

    def __init__(self, directory: str, *, patience_seconds: float = 3.0, **options: Any) -> None:
        self._directory, self._patience = Pool(directory, 4), patience_seconds
        self._options: dict[str, Any] = {**options, "patience_seconds": patience_seconds}
        self._databases: dict[str, Database] = {}
        self._places: dict[int, str] = {}
        self._opening = asyncio.Lock()

    async def open(self) -> Cluster:
        """Connects to the directory. Connects to a server when a tenant of it is used."""
        await self._directory.open()
        return self

    async def close(self) -> None:
        """Closes all connections."""
        for database in self._databases.values():
            await database.close()
        await self._directory.close()

    async def __aenter__(self) -> Cluster:
        return await self.open()

    async def __aexit__(self, *_: object) -> None:
        await self.close()

    async def create_tenant(
        self, tenant: int, mode: Mode = Mode.COMPUTE, is_partial: bool = False, *, server: Optional[str] = None
    ) -> bool:
        """Creates a tenant on a server, by default on the server with the fewest. Returns False if it exists."""
        await self._on_directory(
            "INSERT INTO cedar.directory SELECT %s::bigint, server FROM cedar.servers "
            "WHERE server = coalesce(%s, server) ORDER BY "
            "(SELECT count(*) FROM cedar.directory AS placed WHERE placed.server = cedar.servers.server), server "
            "LIMIT 1 ON CONFLICT DO NOTHING",
            (tenant, server),
        )
        return await self._on_server_of(tenant, lambda database: database.create_tenant(tenant, mode, is_partial))

    async def drop_tenant(self, tenant: int) -> bool:
        """Deletes a tenant with everything it has. Returns False if it does not exist."""
        existed = await self._on_server_of(tenant, lambda database: database.drop_tenant(tenant))
        self._places.pop(tenant, None)
        await self._on_directory("DELETE FROM cedar.directory WHERE tenant = %s::bigint", (tenant,))
        return existed

    def cached_view(self, tenant: int, token: int = 0) -> Optional[View]:
        """Returns the view of a tenant if it is in memory and fresh, otherwise None."""
        database = self._databases.get(self._places.get(tenant, ""))
        return None if database is None else database.cached_view(tenant, token)

    async def view(self, tenant: int, uids: Iterable[str] = (), token: int = 0) -> View:
        """Returns the state of a tenant (see `Database.view`)."""
        view = self.cached_view(tenant, token)
        if view is not None:
            return view
        requested = list(uids)
        return await self._on_server_of(tenant, lambda database: database.view(tenant, requested, token))

    async def change(self, tenant: int, function: Change, *, key: Optional[str] = None) -> Applied:
        """Makes a change of a tenant (see `Database.change`). Waits for the end of a move."""
        return await self._on_server_of(tenant, lambda database: database.change(tenant, function, key=key))

    async def _on_server_of(self, tenant: int, call: Callable[[Database], Awaitable[_Result]]) -> _Result:
        """Calls a function with the database of a tenant. Reads the directory again if the tenant has moved."""
        deadline = time.monotonic() + self._patience
        while True:
            server = self._places.get(tenant) or await self._read_place(tenant)
            try:
                return await call(await self._database(server))
            except (NoTenant, Moving) as error:
                place = await self._read_place(tenant)
                if place == server and (isinstance(error, NoTenant) or time.monotonic() > deadline):
                    raise
                if place == server:
                    await asyncio.sleep(0.02)

    async def _read_place(self, tenant: int) -> str:
        """Reads the server of a tenant from the directory."""
        rows = await self._on_directory("SELECT server FROM cedar.directory WHERE tenant = %s::bigint", (tenant,))
        if not rows:
            self._places.pop(tenant, None)
            raise NoTenant(f"the directory has no tenant {tenant}")
        self._places[tenant] = rows[0][0]
        return self._places[tenant]

    async def _database(self, server: str) -> Database:
        """Returns the database of a server. Opens it at the first use."""
        database = self._databases.get(server)
        if database is not None:
            return database
        async with self._opening:
            if server not in self._databases:
                rows = await self._on_directory("SELECT dsn, reads FROM cedar.servers WHERE server = %s", (server,))
                if not rows:
                    raise DatabaseError(f"the directory has no server {server}")
                dsn, reads = rows[0]
                self._databases[server] = await Database(dsn, reads=reads, **self._options).open()
            return self._databases[server]

    async def _on_directory(self, statement: str, arguments: Sequence[Any]) -> Rows:
        return await self._directory.run_repeatedly(statement, arguments, self._patience)
