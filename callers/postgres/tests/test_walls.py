"""Tests that no call of one tenant reads or writes another tenant."""
from __future__ import annotations

import psycopg
from cedar_postgres import Database, Draft, NoTenant, Unprotected
from cedar_postgres.pool import Pool
from cedar_postgres.tenant import read_tenant
from cedar_store import Effect, Entity, EntityUid, Policies, values
from helpers import DatabaseTest, assert_denied, reason_of
from servers import shared_server

TABLES = ("tenants", "entities", "parents", "policies", "texts", "changes")
ALICE, STAFF, LONG = EntityUid('User::"alice"'), EntityUid('Group::"staff"'), EntityUid.make("Long", "x" * 3000)


class Walls(DatabaseTest):
    async def asyncSetUp(self) -> None:
        """Creates two tenants with the same uids and ids, and different contents."""
        await super().asyncSetUp()
        for tenant, group in ((1, "one"), (2, "two")):
            await self.database.create_tenant(tenant)
            await self.database.change(tenant, lambda draft: self._fill(draft, group))
        self.before = self._rows_of(2)

    async def _fill(self, draft: Draft, group: str) -> None:
        await draft.add([Entity(ALICE, [f'Group::"{group}"', LONG], attrs={"of": group}), Entity(f'Only::"{group}"')])
        draft.add_static("policy", when=values.PRINCIPAL.is_in(EntityUid(f'Group::"{group}"')))
        draft.add_static("only " + group, Effect.FORBID)

    def _rows_of(self, tenant: int) -> list[object]:
        return [self.sql(f"SELECT * FROM cedar.{table} WHERE tenant = %s ORDER BY 2, 3", tenant) for table in TABLES]

    async def test_every_call_sees_and_changes_only_its_tenant(self) -> None:
        other = await self.open(max_bytes=8192)  # its tenants are too large, so it reads slices
        for database in (self.database, other):
            view = await database.view(1, [ALICE, 'Only::"two"'])
            self.assertEqual(view.is_whole, database is self.database)
            self.assertEqual(view.ancestors(ALICE), ['Group::"one"', LONG])
            self.assertEqual(view.entity(ALICE).attrs, {"of": "one"})
            self.assertNotIn('Only::"two"', view)
            self.assertIsNone(view.policies.get("only two"))
            self.assertEqual(str(view.policies.non_scope_constraints("policy")), '(principal in Group::"one")')
        for edit in (
            lambda draft: draft.remove([ALICE, 'Only::"two"']),
            lambda draft: draft.upsert([Entity(ALICE, attrs={"of": 3}), Entity(STAFF)]),
            lambda draft: draft.add([Entity('Only::"two"', [STAFF])]),
            lambda draft: draft.remove_static("policy"),
            lambda draft: draft.add_static("only two"),
            lambda draft: draft.merge(Policies()),
        ):
            await self.database.change(1, edit)
        self.assertEqual(await reason_of(self.database.change(1, lambda draft: draft.unlink("only"))), "no link")
        self.assertFalse(await self.database.create_tenant(1))
        self.assertTrue(await self.database.drop_tenant(1))
        with self.assertRaises(NoTenant):
            await self.database.view(1)
        self.assertEqual(self._rows_of(1), [[]] * len(TABLES))
        self.assertEqual(self._rows_of(2), self.before)

    async def test_an_idempotency_key_of_another_tenant_is_free(self) -> None:
        first = await self.database.change(2, lambda draft: draft.add_static("a"), key="key")
        second = await self.database.change(1, lambda draft: draft.add_static("b"), key="key")
        self.assertIsNotNone((await self.database.view(1, token=second.token)).policies.get("b"))
        self.assertIsNone((await self.database.view(2, token=first.token)).policies.get("b"))

    async def test_a_function_without_a_condition_sees_only_the_tenant_that_is_set(self) -> None:
        """The second wall: the mistake that the first one cannot make up for."""
        for table in TABLES:
            self.sql(
                f"CREATE FUNCTION cedar.all_{table}(of_tenant bigint) RETURNS SETOF bigint LANGUAGE plpgsql AS $$ "
                "BEGIN PERFORM set_config('cedar.tenant', of_tenant::text, true); "
                f"RETURN QUERY SELECT DISTINCT tenant FROM cedar.{table}; END $$"
            )
            with psycopg.connect(self.dsn, autocommit=True) as connection:
                rows = connection.execute(f"SELECT * FROM cedar.all_{table}(1)".encode()).fetchall()
                self.assertEqual(rows, [(1,)], table)
                # The setting ends with its transaction.
                self.assertEqual(connection.execute(f"SELECT tenant FROM cedar.{table}".encode()).fetchall(), [])

    async def test_statements_of_the_service_cannot_write_another_tenant(self) -> None:
        rows = {
            "tenants": "(2, 'here', 9, 'compute', false)",
            "entities": "(2, 'A::\"x\"', '{}', '{}', '{}')",
            "parents": "(2, 'User::\"alice\"', 'A::\"x\"')",
            "policies": "(2, 'x', 1, 1, 'static', 'permit', '{}', '{}', '{}', '{}')",
            "texts": "(2, 'x', 'x')",
            "changes": "(2, 99, 'x')",
        }
        with psycopg.connect(self.dsn) as connection:
            for setting in ("1", ""):
                for table, row in rows.items():
                    with self.assertRaises(psycopg.errors.InsufficientPrivilege, msg=table):
                        with connection.transaction():
                            connection.execute("SELECT set_config('cedar.tenant', %s, true)", (setting,))
                            connection.execute(f"INSERT INTO cedar.{table} VALUES {row}".encode())
                    for statement in (
                        "UPDATE cedar.{} SET tenant = tenant WHERE tenant = 2",
                        "DELETE FROM cedar.{} WHERE tenant = 2",
                    ):
                        with connection.transaction(force_rollback=True):
                            connection.execute("SELECT set_config('cedar.tenant', %s, true)", (setting,))
                            self.assertEqual(connection.execute(statement.format(table).encode()).rowcount, 0)
        self.assertEqual(self._rows_of(2), self.before)

    async def test_the_service_cannot_take_the_wall_down(self) -> None:
        assert_denied(
            self,
            self.dsn,
            "ALTER TABLE cedar.entities DISABLE ROW LEVEL SECURITY",
            "DROP POLICY wall ON cedar.entities",
            "TRUNCATE cedar.entities",
            "SET row_security = off; SELECT * FROM cedar.entities",
            "CREATE TABLE cedar.mine ()",
            "DELETE FROM cedar.migrations",
        )

    async def test_the_versions_of_other_tenants_are_all_that_passes_the_wall(self) -> None:
        pool = Pool(self.dsn)
        await pool.open()
        self.addAsyncCleanup(pool.close)
        self.assertEqual(await pool.run("SELECT * FROM cedar.versions(ARRAY[2, 3])"), [(2, 2)])
        rows = await read_tenant(pool, 1, uids=['Only::"two"', ALICE])
        self.assertEqual(len(rows.entities), 1)

    async def test_a_role_that_passes_the_wall_is_rejected(self) -> None:
        dsn = shared_server().owner_dsn(self.name)
        with self.assertRaises(Unprotected):
            await Database(dsn).open()
        database = await Database(dsn).open(allow_superuser=True)
        self.assertEqual((await database.view(1)).ancestors(ALICE), ['Group::"one"', LONG])
        await database.close()
