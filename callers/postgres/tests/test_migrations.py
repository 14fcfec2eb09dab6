"""Tests that migrations can be interrupted, repeated and run at the same time."""
from __future__ import annotations

import contextlib
import os
import signal
import subprocess
import sys
import threading
import unittest
from unittest import mock

import psycopg
from cedar_postgres import migrate, migrations
from servers import shared_server

_CATALOG = """
SELECT 'column', table_name, column_name, data_type || is_nullable || coalesce(column_default, '')
    FROM information_schema.columns WHERE table_schema = 'cedar' AND table_name <> 'migrations'
UNION ALL SELECT 'index', tablename, indexname, indexdef FROM pg_indexes WHERE schemaname = 'cedar'
UNION ALL SELECT 'policy', tablename, policyname, qual || with_check FROM pg_policies WHERE schemaname = 'cedar'
UNION ALL SELECT 'function', proname, '', pg_get_functiondef(oid) FROM pg_proc
    WHERE pronamespace = 'cedar'::regnamespace
UNION ALL SELECT 'wall', relname, relrowsecurity::text, relforcerowsecurity::text || coalesce(relacl::text, '')
    FROM pg_class WHERE relnamespace = 'cedar'::regnamespace
ORDER BY 1, 2, 3
"""
_INTERRUPTED = """
import os, sys
from cedar_postgres import migrate
number = int(sys.argv[2])
migrate(sys.argv[1], lambda migration: os.kill(os.getpid(), 9) if migration.number == number else None)
"""


class Interrupted(Exception):
    pass


class Migrations(unittest.TestCase):
    def setUp(self) -> None:
        self.name = self.id().rsplit(".", 1)[1][:60]
        shared_server().sql("CREATE DATABASE " + self.name)
        self.dsn = shared_server().owner_dsn(self.name)

    def _catalog(self) -> list[object]:
        return shared_server().sql(_CATALOG, dsn=self.dsn)

    def _applied(self) -> list[int]:
        return [
            number
            for number, in shared_server().sql("SELECT number FROM cedar.migrations ORDER BY number", dsn=self.dsn)
        ]

    def test_migrations_are_numbered_and_applied_once(self) -> None:
        numbers = [migration.number for migration in migrations.all_migrations()]
        self.assertEqual(numbers, list(range(1, len(numbers) + 1)))
        self.assertEqual(migrate(self.dsn), numbers)
        before = self._catalog()
        self.assertEqual(migrate(self.dsn), [])
        self.assertEqual(self._catalog(), before)

    def test_a_migration_that_is_killed_leaves_nothing_and_goes_on(self) -> None:
        path = os.pathsep.join(folder for folder in sys.path if folder)
        for migration in migrations.all_migrations():
            command = [sys.executable, "-B", "-c", _INTERRUPTED, self.dsn, str(migration.number)]
            process = subprocess.run(command, env={**os.environ, "PYTHONPATH": path})
            self.assertEqual(process.returncode, -signal.SIGKILL)
            self.assertEqual(self._applied(), list(range(1, migration.number)))
        self.assertEqual(migrate(self.dsn), [migrations.required_number()])
        self._compare_with_uninterrupted()

    def test_a_migration_whose_connection_is_lost_goes_on(self) -> None:
        def lose_connection(migration: migrations.Migration) -> None:
            shared_server().sql("SELECT pg_terminate_backend(pid) FROM pg_stat_activity WHERE datname = %s", self.name)

        for number in range(1, migrations.required_number() + 1):
            with self.assertRaises(psycopg.OperationalError):
                migrate(self.dsn, lambda migration: lose_connection(migration) if migration.number == number else None)
            self.assertEqual(self._applied(), list(range(1, number)))
        migrate(self.dsn)
        self._compare_with_uninterrupted()

    def test_an_error_in_a_migration_leaves_nothing_of_it(self) -> None:
        migrate(self.dsn)
        before = self._catalog()
        wrong = migrations.Migration(99, "wrong", "CREATE TABLE cedar.wrong (); SELECT 1 / 0", "checksum")
        with mock.patch.object(migrations, "all_migrations", lambda: [wrong]):
            with self.assertRaises(psycopg.errors.DivisionByZero):
                migrate(self.dsn)
        self.assertEqual(self._catalog(), before)

    def test_several_at_the_same_time_apply_each_once(self) -> None:
        results: list[list[int]] = []
        threads = [threading.Thread(target=lambda: results.append(migrate(self.dsn))) for _ in range(4)]
        for thread in threads:
            thread.start()
        for thread in threads:
            thread.join()
        self.assertEqual(sorted(sum(results, [])), list(range(1, migrations.required_number() + 1)))
        self._compare_with_uninterrupted()

    def test_an_edited_migration_is_reported(self) -> None:
        migrate(self.dsn)
        first = migrations.all_migrations()[0]._replace(checksum="other")
        with mock.patch.object(migrations, "all_migrations", lambda: [first]), self.assertRaises(ValueError):
            migrate(self.dsn)

    def test_the_command(self) -> None:
        path = os.pathsep.join(folder for folder in sys.path if folder)
        for expected in ("applied migration 1", "nothing to do"):
            output = subprocess.run(
                [sys.executable, "-B", "-m", "cedar_postgres", "migrate", self.dsn],
                text=True,
                env={**os.environ, "PYTHONPATH": path},
                stdout=subprocess.PIPE,
                check=True,
            ).stdout
            self.assertIn(expected, output)

    def _compare_with_uninterrupted(self) -> None:
        other = self.name[:50] + "_whole"
        with contextlib.suppress(psycopg.errors.DuplicateDatabase):
            shared_server().sql("CREATE DATABASE " + other)
        migrate(shared_server().owner_dsn(other))
        self.assertEqual(self._catalog(), shared_server().sql(_CATALOG, dsn=shared_server().owner_dsn(other)))
