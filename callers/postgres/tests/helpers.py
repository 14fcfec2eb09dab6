"""What the tests share: a database for each test, and comparisons of stores and policy sets."""
from __future__ import annotations

import asyncio
import unittest
from typing import Any

import psycopg
from cedar_postgres import Database
from cedar_store import CedarError, Policies, Store
from servers import shared_server


class DatabaseTest(unittest.IsolatedAsyncioTestCase):
    """A test with a database of its own, on the server that the tests share."""

    def setUp(self) -> None:
        self.name = self.id().rsplit(".", 1)[1].lower()[:60]
        self.dsn = shared_server().create_database(self.name)

    async def asyncSetUp(self) -> None:
        asyncio.get_running_loop().set_debug(False)
        self.database = await self.open()

    async def open(self, **options: Any) -> Database:
        """Opens the database of this test once more. The test closes it at its end.

        It waits long enough for a server on a busy machine.
        """
        database = await Database(self.dsn, **{"statement_seconds": 30.0, "patience_seconds": 30.0, **options}).open()
        self.addAsyncCleanup(database.close)
        return database

    def sql(self, statement: str, *values: object) -> list[Any]:
        """Runs a statement as the superuser, who passes the wall."""
        return shared_server().sql(statement, *values, dsn=shared_server().owner_dsn(self.name))

    def assert_equal_stores(self, stored: Store, expected: Store) -> None:
        self.assertTrue(stored == expected)
        self.assertEqual(stored.is_partial(), expected.is_partial())
        for uid in expected.uids():
            self.assertEqual(stored.parents(uid), expected.parents(uid))
            self.assertEqual(stored.indirect_ancestors(uid), expected.indirect_ancestors(uid))

    def assert_equal_policies(self, stored: Policies, expected: Policies) -> None:
        self.assertTrue(stored == expected)
        self.assertEqual((stored.bodies(), stored.policies()), (expected.bodies(), expected.policies()))


def assert_denied(test: unittest.TestCase, dsn: str, *statements: str) -> None:
    """Checks that a role lacks the privilege for each of some statements."""
    with psycopg.connect(dsn, autocommit=True) as connection:
        for statement in statements:
            with test.assertRaises(psycopg.errors.InsufficientPrivilege, msg=statement):
                connection.execute(statement.encode())


async def reason_of(call: Any) -> str:
    """Returns the reason of the `CedarError` that a coroutine raises, or an empty text."""
    try:
        await call
    except CedarError as error:
        return error.reason
    return ""


def reason_by(call: Any, *arguments: Any, **options: Any) -> str:
    """Returns the reason of the `CedarError` that a call raises, or an empty text."""
    try:
        call(*arguments, **options)
    except CedarError as error:
        return error.reason
    return ""
