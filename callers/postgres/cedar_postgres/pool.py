"""A pool of connections to one of several hosts, with a time limit for each statement.

A statement is sent in autocommit mode and without a prepared plan, and sets nothing in the session. So a pooler that
shares sessions between transactions (pgbouncer in transaction mode) can be in front of the server.
"""
from __future__ import annotations

import asyncio
import contextlib
import time
from typing import Any, AsyncIterator, Optional, Sequence

import psycopg
import psycopg.conninfo
import psycopg_pool

from .errors import Retry, Unavailable, database_error, is_connection_failure

Connection = psycopg.AsyncConnection[Any]
Rows = list[tuple[Any, ...]]

# The time for one attempt to connect to one host, in seconds. A host that hangs accepts connections without an answer.
_CONNECT_SECONDS = 2.0
_PAUSE_SECONDS = 0.1


def single_hosts(dsn: str) -> list[str]:
    """Returns a connection string for each host of a connection string.

    libpq tries the hosts one after another, but its time limit does not apply to each of them here.
    """
    parameters = psycopg.conninfo.conninfo_to_dict(dsn)
    hosts = parameters.get("host", "").split(",")
    ports = parameters.get("port", "").split(",")
    if len(hosts) == 1:
        return [dsn]
    ports = ports * len(hosts) if len(ports) == 1 else ports
    pairs = zip(hosts, ports)
    hosts_of_dsn = [psycopg.conninfo.make_conninfo(dsn, host=host, port=port) for host, port in pairs]
    if parameters.get("target_session_attrs") == "prefer-standby":
        standby = [psycopg.conninfo.make_conninfo(one, target_session_attrs="standby") for one in hosts_of_dsn]
        return standby + [psycopg.conninfo.make_conninfo(one, target_session_attrs="any") for one in hosts_of_dsn]
    return hosts_of_dsn


async def connect(dsn: str, **options: Any) -> Connection:
    """Connects to the first host that accepts the connection. Raises the error of the last host."""
    error: BaseException = Unavailable("the connection string has no host")
    for single in single_hosts(dsn):
        try:
            async with asyncio.timeout(_CONNECT_SECONDS):
                connection: Connection = await psycopg.AsyncConnection.connect(
                    single, autocommit=True, prepare_threshold=None, **options
                )
            return connection
        except (psycopg.Error, OSError) as failure:
            error = failure
    raise error


class _PooledConnection(psycopg.AsyncConnection[Any]):
    """A connection that a pool opens. It tries all hosts until one of them accepts it, or until the pool is closed."""

    opened_at = 0.0

    @classmethod
    async def connect(  # type: ignore[override]
        cls, conninfo: str = "", *, owner: Optional[Pool] = None, **_: Any
    ) -> Any:
        assert owner is not None
        hosts, number = single_hosts(conninfo), 0
        while not owner.is_closed:
            started_at = time.monotonic()
            try:
                async with asyncio.timeout(_CONNECT_SECONDS):
                    connection: Any = await super().connect(
                        hosts[number % len(hosts)], autocommit=True, prepare_threshold=None
                    )
                connection.opened_at = started_at
                return connection
            except (psycopg.Error, OSError) as error:
                owner.last_error = str(error) or "it did not answer"
            number += 1
            if number % len(hosts) == 0:
                await asyncio.sleep(_PAUSE_SECONDS)
        raise psycopg.OperationalError("the pool is closed")


class Pool:
    """Up to `size` connections to the first host of a connection string that accepts them.

    If a statement takes longer than `statement_seconds`, its connection is closed. libpq itself would wait without end
    for a server that hangs.
    """

    def __init__(self, dsn: str, size: int = 8, statement_seconds: float = 5.0, wait_seconds: float = 2.0) -> None:
        self.dsn, self.statement_seconds = dsn, statement_seconds
        self.is_closed, self.last_error = False, ""
        self._size, self._in_use, self._failed_at = size, 0, 0.0
        self._pool = psycopg_pool.AsyncConnectionPool(
            dsn,
            connection_class=_PooledConnection,
            kwargs={"owner": self},
            min_size=1,
            max_size=size,
            timeout=wait_seconds,
            open=False,
        )

    async def open(self) -> None:
        """Starts to connect. Does not wait for a connection."""
        await self._pool.open()

    async def close(self) -> None:
        """Closes all connections."""
        self.is_closed = True
        await self._pool.close(timeout=2 * _CONNECT_SECONDS)

    @contextlib.asynccontextmanager
    async def connection(self) -> AsyncIterator[Connection]:
        """Takes a connection out of the pool for a while.

        Raises:
            Retry: all connections are in use.
            Unavailable: no server accepts a connection.
        """
        connection = await self._checked_connection()
        self._in_use += 1
        try:
            yield connection
        except (psycopg.Error, OSError, asyncio.CancelledError) as error:
            if isinstance(error, asyncio.CancelledError) or is_connection_failure(error):
                self._failed_at = self._failed_at if isinstance(error, asyncio.CancelledError) else time.monotonic()
                await connection.close()
            raise
        finally:
            self._in_use -= 1
            await self._pool.putconn(connection)

    async def _checked_connection(self) -> Any:
        """Returns a connection that was opened after the last failure."""
        while True:
            try:
                connection: Any = await self._pool.getconn()
            except (psycopg_pool.PoolTimeout, psycopg_pool.TooManyRequests) as error:
                if self._in_use >= self._size:
                    raise Retry("all connections of the pool are in use") from error
                raise Unavailable(f"no server accepts a connection: {self.last_error}") from error
            if connection.opened_at >= self._failed_at:
                return connection
            # Opened before a failure. Its server may be dead, or a replica now.
            await connection.close()
            await self._pool.putconn(connection)

    async def run(
        self,
        statement: str,
        arguments: Sequence[Any] = (),
        on: Optional[Connection] = None,
        seconds: Optional[float] = None,
    ) -> Rows:
        """Runs one statement, and returns its rows. `on` is a connection that the caller has already.

        Raises:
            DatabaseError: one of its subclasses, by the error of the driver.
        """
        rows: Rows = []
        try:
            if on is not None:
                rows = await self._fetch(on, statement, arguments, seconds)
            else:
                async with self.connection() as connection:
                    rows = await self._fetch(connection, statement, arguments, seconds)
        except (psycopg.Error, OSError) as error:
            if on is not None and is_connection_failure(error):
                self._failed_at = time.monotonic()
                await on.close()
            raise database_error(error) from error
        return rows

    async def _fetch(
        self, connection: Connection, statement: str, arguments: Sequence[Any], seconds: Optional[float]
    ) -> Rows:
        async with asyncio.timeout(seconds or self.statement_seconds):
            cursor = await connection.execute(statement.encode(), arguments)
            return await cursor.fetchall() if cursor.description else []

    async def run_repeatedly(self, statement: str, arguments: Sequence[Any], patience_seconds: float) -> Rows:
        """Runs a statement that can be repeated, again if its connection is lost, for some seconds.

        Raises:
            DatabaseError: one of its subclasses, by the error of the driver.
        """
        deadline = time.monotonic() + patience_seconds
        while True:
            try:
                return await self.run(statement, arguments)
            except Unavailable as error:
                if time.monotonic() > deadline or not error.is_connection_lost:
                    raise
            await asyncio.sleep(0.02)
