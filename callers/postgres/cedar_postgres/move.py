"""Moves a tenant to another server while it is in use, by PostgreSQL's logical replication with a row filter.

A call goes on from the last finished step. So a move can be interrupted anywhere and repeated. Changes of the tenant
are rejected from the fence until the directory names the new server. Nothing is deleted before the counts and checksums
of both servers are equal.
"""
from __future__ import annotations

import contextlib
import time
from typing import Any, Callable, Iterator, NamedTuple

import psycopg

_TABLES = ("entities", "parents", "policies", "texts", "changes")
_LOCK = 0x6D6F7665  # "move"
_WAIT_SECONDS = 0.02
# A server notices only after some time that a client was killed, or that a subscription was disabled.
_LOCK_SECONDS = 10.0
_SLOT_SECONDS = 60.0
# The target is this near when the fence is closed, in bytes of the log.
_NEAR_BYTES = 100_000

STEPS = (
    "recorded",
    "published",
    "subscribed",
    "copied",
    "fenced",
    "drained",
    "verified",
    "opened",
    "switched",
    "unsubscribed",
    "deleted",
    "forgotten",
)

Connection = psycopg.Connection[Any]


class MoveError(Exception):
    """The move cannot go on. The text says why, and what to do."""


class Moved(NamedTuple):
    """A finished move: how long changes were rejected, and how long all of it took, in seconds."""

    rejected_seconds: float
    seconds: float


class Move:
    """A move of one tenant. `after` is called after each step with its name.

    A call waits for another move to end, for `lock_seconds` at most.
    """

    def __init__(
        self,
        directory: str,
        tenant: int,
        target: str,
        after: Callable[[str], None] = lambda _: None,
        lock_seconds: float = _LOCK_SECONDS,
    ) -> None:
        self._directory_dsn, self.tenant, self.target, self._after = directory, int(tenant), target, after
        self._lock_seconds = lock_seconds
        self.name = f"cedar_move_{self.tenant}"
        self._fenced_at = self._rejected = 0.0

    def run(self) -> Moved:
        """Moves the tenant, or goes on with its move. Does nothing if the target has the tenant.

        Raises:
            MoveError: another move is running, the tenant is on its way to another server, or the copies differ.
            psycopg.Error: a server has failed. Repeat the move.
        """
        started_at = time.monotonic()
        with self._connected():
            if not self._record():
                return Moved(0.0, 0.0)
            if self._place() != self.target:
                self._copy_and_switch()
            self._clean_up()
        return Moved(self._rejected, time.monotonic() - started_at)

    def cancel(self) -> None:
        """Ends a move that has not opened the tenant at its target. The source goes on as before.

        Raises:
            MoveError: there is no such move, or the target has the tenant already.
        """
        with self._connected():
            if not self._is_recorded() or self._place() == self.target or self._is_opened():
                raise MoveError(f"tenant {self.tenant} is not on its way to {self.target}, or has arrived there")
            self._start_again()
            self._forget()

    @contextlib.contextmanager
    def _connected(self) -> Iterator[None]:
        """Connects to the three databases, and holds the lock of moves."""
        with contextlib.ExitStack() as stack:
            self.directory = stack.enter_context(psycopg.connect(self._directory_dsn, autocommit=True))
            self._lock()
            source = self._value(
                self.directory,
                "SELECT coalesce((SELECT source FROM cedar.moves WHERE tenant = %s), "
                "(SELECT server FROM cedar.directory WHERE tenant = %s))",
                self.tenant,
                self.tenant,
            )
            if source is None:
                raise MoveError(f"the directory has no tenant {self.tenant}")
            self.source_name = source
            self._source_dsn = self._admin(source)
            self.source = stack.enter_context(psycopg.connect(self._source_dsn, autocommit=True))
            self.copy = stack.enter_context(psycopg.connect(self._admin(self.target), autocommit=True))
            for connection in (self.source, self.copy):
                connection.execute("SET jit = off")
                if not self._value(connection, "SELECT rolsuper FROM pg_roles WHERE rolname = current_user"):
                    raise MoveError("a move needs connection strings of superusers in cedar.servers")
            yield

    def _lock(self) -> None:
        """Takes the lock of moves, which ends with the connection."""
        deadline = time.monotonic() + self._lock_seconds
        while not self._value(self.directory, "SELECT pg_try_advisory_lock(%s)", _LOCK):
            if time.monotonic() > deadline:
                raise MoveError("another move is running: one at a time")
            time.sleep(_WAIT_SECONDS)

    def _admin(self, server: str) -> str:
        dsn = self._value(self.directory, "SELECT admin FROM cedar.servers WHERE server = %s", server)
        if dsn is None:
            raise MoveError(f"the directory has no server {server}")
        return str(dsn)

    @staticmethod
    def _value(connection: Connection, statement: str, *arguments: Any) -> Any:
        """Returns the only value of a statement, or None if it has no row."""
        row = connection.execute(statement.encode(), arguments).fetchone()
        return None if row is None else row[0]

    def _place(self) -> Any:
        return self._value(self.directory, "SELECT server FROM cedar.directory WHERE tenant = %s", self.tenant)

    def _is_recorded(self) -> bool:
        target = self._value(self.directory, "SELECT target FROM cedar.moves WHERE tenant = %s", self.tenant)
        if target not in (None, self.target):
            raise MoveError(f"tenant {self.tenant} is on its way to {target}: finish or cancel that move first")
        return target is not None

    def _record(self) -> bool:
        """Records the move. Returns False if there is nothing to do."""
        if not self._is_recorded():
            if self._place() == self.target:
                return False
            self.directory.execute(
                "INSERT INTO cedar.moves (tenant, source, target) VALUES (%s, %s, %s)",
                (self.tenant, self.source_name, self.target),
            )
        self._after("recorded")
        return True

    def _is_opened(self) -> bool:
        return bool(self._value(self.copy, "SELECT true FROM cedar.tenants WHERE tenant = %s", self.tenant))

    def _copy_and_switch(self) -> None:
        if not self._is_opened():
            if self._slot_is_lost():
                self._start_again()
            self._publish()
            self._subscribe()
            self._wait_for_copy()
            self._fence()
            self._drain()
            self._verify()
            self._open()
        self._after("opened")
        self.directory.execute("UPDATE cedar.directory SET server = %s WHERE tenant = %s", (self.target, self.tenant))
        self._rejected = time.monotonic() - self._fenced_at if self._fenced_at else 0.0
        self._after("switched")

    def _has_subscription(self) -> bool:
        return bool(
            self._value(
                self.copy,
                "SELECT true FROM pg_subscription WHERE subname = %s AND subdbid = "
                "(SELECT oid FROM pg_database WHERE datname = current_database())",
                self.name,
            )
        )

    def _slot_is_lost(self) -> bool:
        """Returns whether the subscription has no slot at the source, for example after a failover."""
        slot = self._value(self.source, "SELECT true FROM pg_replication_slots WHERE slot_name = %s", self.name)
        return self._has_subscription() and not slot

    def _start_again(self) -> None:
        """Opens the fence, and removes the copy."""
        self.source.execute("UPDATE cedar.tenants SET state = 'here' WHERE tenant = %s", (self.tenant,))
        self._unsubscribe()
        self._delete(self.copy)

    def _publish(self) -> None:
        if not self._value(self.source, "SELECT true FROM pg_publication WHERE pubname = %s", self.name):
            tables = ", ".join(f"cedar.{table} WHERE (tenant = {self.tenant})" for table in _TABLES)
            self.source.execute(f"CREATE PUBLICATION {self.name} FOR TABLE {tables}".encode())
        self._after("published")

    def _subscribe(self) -> None:
        if not self._has_subscription():
            self._delete(self.copy)  # what an interrupted move has left
            self._drop_slot()
            with psycopg.ClientCursor(self.copy) as cursor:
                cursor.execute(
                    f"CREATE SUBSCRIPTION {self.name} CONNECTION %s PUBLICATION {self.name}".encode(),
                    (self._source_dsn,),
                )
        self.copy.execute(f"ALTER SUBSCRIPTION {self.name} ENABLE".encode())
        self._after("subscribed")

    def _drop_slot(self) -> None:
        """Drops a slot of the source that has no subscription."""
        self.source.execute(
            "SELECT pg_drop_replication_slot(slot_name) FROM pg_replication_slots "
            "WHERE slot_name = %s AND NOT active",
            (self.name,),
        )

    def _wait_for_copy(self) -> None:
        while self._value(
            self.copy,
            "SELECT count(*) FROM pg_subscription_rel JOIN pg_subscription ON oid = srsubid "
            "WHERE subname = %s AND srsubstate <> 'r'",
            self.name,
        ):
            self._check_slot()
            time.sleep(_WAIT_SECONDS)
        self._wait_until_passed("pg_current_wal_insert_lsn() - %s::numeric", _NEAR_BYTES)
        self._after("copied")

    def _check_slot(self) -> None:
        if self._slot_is_lost():
            raise MoveError(f"server {self.source_name} has lost the replication slot: repeat the move")

    def _wait_until_passed(self, position: str, *arguments: Any) -> None:
        """Waits until the target has written everything up to a position of the source's log."""
        lsn = self._value(self.source, f"SELECT ({position})::text", *arguments)
        while not self._value(
            self.source,
            "SELECT confirmed_flush_lsn >= %s::pg_lsn FROM pg_replication_slots " "WHERE slot_name = %s",
            lsn,
            self.name,
        ):
            self._check_slot()
            time.sleep(_WAIT_SECONDS / 10)

    def _fence(self) -> None:
        """Waits for the change in progress, which has the row of the tenant. Then no other can begin."""
        self._fenced_at = time.monotonic()
        self.source.execute("UPDATE cedar.tenants SET state = 'leaving' WHERE tenant = %s", (self.tenant,))
        self._after("fenced")

    def _drain(self) -> None:
        self._wait_until_passed("pg_current_wal_flush_lsn()")
        self._after("drained")

    def _verify(self) -> None:
        """Compares the counts and checksums of all rows. If they differ, the source goes on as before."""
        source, copy = self._checksums(self.source), self._checksums(self.copy)
        if source != copy:
            self._start_again()
            raise MoveError(f"the copies differ: {source} and {copy}. The tenant stays on {self.source_name}")
        self._after("verified")

    def _checksums(self, connection: Connection) -> list[Any]:
        """Returns the number of rows and their checksum for each table."""
        checksum = "coalesce(sum(hashtextextended(r::text, 0)::numeric), 0)::text"
        statement = f"SELECT count(*), {checksum} FROM cedar.{{}} AS r WHERE tenant = %s"
        return [connection.execute(statement.format(table).encode(), (self.tenant,)).fetchone() for table in _TABLES]

    def _open(self) -> None:
        """Opens the tenant at the target. From then on, only the target has it."""
        row = self.source.execute(
            "SELECT version, mode, is_partial FROM cedar.tenants WHERE tenant = %s", (self.tenant,)
        ).fetchone()
        if row is None:
            raise MoveError(f"server {self.source_name} has no tenant {self.tenant}")
        with self.copy.transaction():
            self.copy.execute(f"ALTER SUBSCRIPTION {self.name} DISABLE".encode())
            self.copy.execute(
                "INSERT INTO cedar.tenants (tenant, version, mode, is_partial) VALUES (%s, %s, %s, %s)",
                (self.tenant, *row),
            )

    def _clean_up(self) -> None:
        """Removes the subscription, and then the rows of the source. The order keeps the rows of the target."""
        self._unsubscribe()
        self._after("unsubscribed")
        if self._place() == self.target and self._is_opened():
            self._delete(self.source)
        self._after("deleted")
        self._forget()
        self._after("forgotten")

    def _unsubscribe(self) -> None:
        """Drops the subscription, its slot and the publication, as far as they exist."""
        if self._has_subscription():
            self.copy.execute(f"ALTER SUBSCRIPTION {self.name} DISABLE".encode())
            self.copy.execute(f"ALTER SUBSCRIPTION {self.name} SET (slot_name = NONE)".encode())
            self.copy.execute(f"DROP SUBSCRIPTION {self.name}".encode())
        deadline = time.monotonic() + _SLOT_SECONDS
        while self._value(self.source, "SELECT true FROM pg_replication_slots WHERE slot_name = %s", self.name):
            with contextlib.suppress(psycopg.errors.ObjectInUse):
                self._drop_slot()
            if time.monotonic() > deadline:
                raise MoveError("the replication slot is still in use: repeat the move")
            time.sleep(_WAIT_SECONDS)
        self.source.execute(f"DROP PUBLICATION IF EXISTS {self.name}".encode())

    def _delete(self, connection: Connection) -> None:
        """Deletes all rows of the tenant."""
        for table in ("parents", "entities", "policies", "texts", "changes", "tenants"):
            connection.execute(f"DELETE FROM cedar.{table} WHERE tenant = %s".encode(), (self.tenant,))

    def _forget(self) -> None:
        self.directory.execute("DELETE FROM cedar.moves WHERE tenant = %s", (self.tenant,))
