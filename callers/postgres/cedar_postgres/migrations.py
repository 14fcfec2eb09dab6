"""The numbered migrations of the schema `cedar`.

The folder `migrations` has one file of SQL for each. A migration and the row that records it are one transaction. So an
interrupted migration leaves nothing, and the next call goes on. Several calls at the same time run one after another.
"""
from __future__ import annotations

import glob
import hashlib
import os
from typing import Any, Callable, NamedTuple

import psycopg

_FOLDER = os.path.join(os.path.dirname(os.path.abspath(__file__)), "migrations")
_LOCK = 0x6365646172  # "cedar"
_BEGIN = """
CREATE SCHEMA IF NOT EXISTS cedar;
CREATE TABLE IF NOT EXISTS cedar.migrations (
    number integer PRIMARY KEY,
    name text NOT NULL,
    checksum text NOT NULL,
    applied_at timestamptz NOT NULL DEFAULT clock_timestamp()
);
"""


class Migration(NamedTuple):
    """A migration: its number, its name, its statements and their checksum."""

    number: int
    name: str
    sql: str
    checksum: str


def all_migrations() -> list[Migration]:
    """Returns all migrations in the order of their numbers."""
    migrations = []
    for path in sorted(glob.glob(os.path.join(_FOLDER, "*.sql"))):
        number, name = os.path.basename(path)[: -len(".sql")].split("_", 1)
        with open(path, encoding="utf-8") as file:
            sql = file.read()
        migrations.append(Migration(int(number), name, sql, hashlib.sha256(sql.encode()).hexdigest()))
    return migrations


def required_number() -> int:
    """Returns the number of the last migration."""
    return all_migrations()[-1].number


def migrate(dsn: str, before_commit: Callable[[Migration], None] = lambda _: None) -> list[int]:
    """Applies all missing migrations to a database. Returns their numbers.

    The role must be able to create a schema and a role. It owns the tables. `before_commit` is called in each
    transaction.

    Raises:
        ValueError: an applied migration differs from its file.
        psycopg.Error: a statement failed. The migrations before it are applied.
    """
    with psycopg.connect(dsn, autocommit=True, options="-c client_min_messages=warning") as connection:
        with connection.transaction():
            connection.execute("SELECT pg_advisory_xact_lock(%s)", (_LOCK,))
            connection.execute(_BEGIN)
        return [migration.number for migration in all_migrations() if _apply(connection, migration, before_commit)]


def _apply(
    connection: psycopg.Connection[Any], migration: Migration, before_commit: Callable[[Migration], None]
) -> bool:
    """Applies a migration in one transaction. Returns False if it is applied already."""
    with connection.transaction():
        connection.execute("SELECT pg_advisory_xact_lock(%s)", (_LOCK,))
        row = connection.execute(
            "SELECT checksum FROM cedar.migrations WHERE number = %s", (migration.number,)
        ).fetchone()
        if row:
            if row[0] != migration.checksum:
                raise ValueError(f"the applied migration {migration.number} differs from its file")
            return False
        connection.execute(migration.sql.encode())
        connection.execute(
            "INSERT INTO cedar.migrations (number, name, checksum) VALUES (%s, %s, %s)",
            (migration.number, migration.name, migration.checksum),
        )
        before_commit(migration)
    return True
