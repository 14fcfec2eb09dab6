"""Tests of reads from a replica: what it may answer, when the primary is asked, and reads without a primary."""
from __future__ import annotations

import asyncio
import os
import subprocess
import time
import unittest
from typing import Any

from cedar_postgres import Behind, Database, DatabaseError, Unavailable
from cedar_store import Entity, EntityUid
from limits import assert_within
from servers import Server, program_folder

ALICE = EntityUid('User::"alice"')


class Replica(unittest.IsolatedAsyncioTestCase):
    def setUp(self) -> None:
        self.primary = Server()
        self.addCleanup(self.primary.close)
        self.dsn = self.primary.create_database("a")
        self.replica = Server(primary=self.primary)
        self.addCleanup(self.replica.close)
        self.reads = self.replica.owner_dsn("a").replace("user=cedar", "user=app")
        self.number = 0

    async def asyncSetUp(self) -> None:
        asyncio.get_running_loop().set_debug(False)
        self.database = await self._open()
        self.reader = await self._open(reads=self.reads)
        self.large = await self._open(reads=self.reads, max_bytes=1000)  # too small for a store, so it reads slices
        await self.database.create_tenant(1)

    async def _open(self, **options: Any) -> Database:
        database = await Database(self.dsn, patience_seconds=1.0, **options).open()
        self.addAsyncCleanup(database.close)
        return database

    async def _write(self) -> int:
        self.number += 1
        entity = Entity(ALICE, [EntityUid(f'Group::"{self.number}"')])
        return (await self.database.change(1, lambda draft: draft.upsert([entity]))).token

    def _is_last(self, view: Any) -> bool:
        return view.ancestors(ALICE) == [f'Group::"{self.number}"']

    async def test_a_token_is_answered_by_the_replica_or_the_primary(self) -> None:
        for _ in range(50):
            token = await self._write()
            for reader in (self.reader, self.large):
                self.assertTrue(self._is_last(await reader.view(1, [ALICE], token)))
        self.replica.sql("SELECT pg_wal_replay_pause()")
        for _ in range(5):
            token = await self._write()
            for reader in (self.reader, self.large):
                self.assertTrue(self._is_last(await reader.view(1, [ALICE], token)))

    async def test_a_replica_that_is_behind_does_not_make_the_answers_older_than_a_second(self) -> None:
        await self._write()
        for reader in (self.reader, self.large):
            await reader.view(1, [ALICE])
        await asyncio.sleep(0.5)
        self.replica.sql("SELECT pg_wal_replay_pause()")
        for _ in range(3):
            await self._write()
            start = time.monotonic()
            for reader in (self.reader, self.large):
                while not self._is_last(await reader.view(1, [ALICE])):
                    await asyncio.sleep(0.01)
            assert_within(1.5, time.monotonic() - start)

    async def test_reads_go_on_without_a_primary(self) -> None:
        token = await self._write()
        for reader in (self.reader, self.large):
            self.assertTrue(self._is_last(await reader.view(1, [ALICE], token)))
        await asyncio.sleep(0.5)
        self.primary.stop("immediate")
        deadline = time.monotonic() + 4
        while time.monotonic() < deadline:
            for reader in (self.reader, self.large):
                self.assertTrue(self._is_last(await reader.view(1, [ALICE], token)))
            await asyncio.sleep(0.05)
        with self.assertRaises((Behind, Unavailable)):
            await self.reader.view(1, [ALICE], token + 1)
        with self.assertRaises(Unavailable):
            await self.reader.change(1, lambda draft: draft.add_static("p"))
        fresh = await self._open(reads=self.reads)
        self.assertTrue(self._is_last(await fresh.view(1, [ALICE], token)))

    async def test_a_replica_takes_no_change(self) -> None:
        database = await Database(self.reads, patience_seconds=0.5).open()
        self.addAsyncCleanup(database.close)
        await self._write()
        with self.assertRaises(DatabaseError) as caught:
            await database.change(1, lambda draft: draft.add_static("p"))
        self.assertIn("25006", str(caught.exception))
        self.assertFalse(caught.exception.may_be_written)  # type: ignore[attr-defined]


class Backup(unittest.IsolatedAsyncioTestCase):
    async def test_a_restored_backup_has_everything_and_its_walls(self) -> None:
        asyncio.get_running_loop().set_debug(False)
        with Server(durable=False) as server:
            dsn = server.create_database("a")
            async with Database(dsn) as database:
                for tenant in (1, 2):
                    await database.create_tenant(tenant)
                    await database.change(
                        tenant, lambda draft: draft.add([Entity(ALICE, [EntityUid(f'A::"{tenant}"')])])
                    )
                tables = {tenant: (await database.view(tenant)).ancestors(ALICE) for tenant in (1, 2)}
            path = os.path.join(server.folder, "backup")
            for program, arguments in (
                ("pg_dump", ["-Fc", "-f", path, server.owner_dsn("a")]),
                ("createdb", ["-h", server.folder, "-U", "cedar", "b"]),
                ("pg_restore", ["-d", server.owner_dsn("b"), path]),
            ):
                subprocess.run([os.path.join(program_folder(), program), *arguments], check=True)
            server.sql("UPDATE cedar.tenants SET version = version + 1000000", dsn=server.owner_dsn("b"))
            async with Database(dsn.replace("dbname=a", "dbname=b")) as database:
                for tenant, ancestors in tables.items():
                    view = await database.view(tenant)
                    self.assertEqual((view.ancestors(ALICE), view.version), (ancestors, 1000002))
                self.assertEqual((await database.change(1, lambda draft: draft.add_static("p"))).token, 1000003)
                rows = await database._primary.run("SELECT tenant FROM cedar.entities")
                self.assertEqual(rows, [])
