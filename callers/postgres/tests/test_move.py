"""Tests of several servers, and of moves of tenants that are in use, interrupted at each step."""
from __future__ import annotations

import asyncio
import os
import random
import signal
import subprocess
import sys
import time
import unittest
from typing import Any

import drawn
from cedar_postgres import Cluster, NoTenant
from cedar_postgres.move import STEPS, Move, MoveError
from cedar_store import Entity, EntityUid, Mode, Store
from helpers import assert_denied, reason_of
from servers import Server

_KILLED = """
import os, sys
from cedar_postgres.move import Move
step = sys.argv[4]
Move(sys.argv[1], int(sys.argv[2]), sys.argv[3], lambda done: os.kill(os.getpid(), 9) if done == step else None).run()
"""
TABLES = ("tenants", "entities", "parents", "policies", "texts", "changes")


class Interrupted(Exception):
    pass


class Writer:
    """A task that edits users of a tenant, and records each edit that was acknowledged."""

    def __init__(self, cluster: Cluster, tenant: int, number: int) -> None:
        self.cluster, self.tenant, self.number, self.rng = cluster, tenant, number, random.Random(number)
        self.groups: dict[EntityUid, EntityUid] = {}
        self.changes, self.longest, self.is_stopped = 0, 0.0, False

    async def run(self) -> None:
        while not self.is_stopped:
            user = EntityUid(f'User::"{self.number} {self.rng.randrange(50)}"')
            group, start = EntityUid(f'Group::"{self.changes}"'), time.monotonic()
            applied = await self.cluster.change(self.tenant, lambda draft: draft.upsert([Entity(user, [group])]))
            self.longest = max(self.longest, time.monotonic() - start)
            self.groups[user], self.changes = group, self.changes + 1
            view = await self.cluster.view(self.tenant, token=applied.token)
            if view.store.parents(user) != [group]:
                raise AssertionError(f"a write is not seen with its token {applied.token}")


class ClusterTest(unittest.IsolatedAsyncioTestCase):
    """A directory and two servers, which all tests of a class share."""

    @classmethod
    def setUpClass(cls) -> None:
        cls.servers = {name: Server() for name in ("a", "b")}
        cls.directory = ""
        for name, server in cls.servers.items():
            cls.addClassCleanup(server.close)
            dsn = server.create_database("tenants")
            cls.directory = cls.directory or server.create_database("directory")
            cls.admin_directory = cls.servers["a"].owner_dsn("directory")
            cls.command("server", cls.admin_directory, name, dsn, server.owner_dsn("tenants"))
        cls.next_tenant = 0

    @staticmethod
    def command(*arguments: str) -> str:
        path = os.pathsep.join(folder for folder in sys.path if folder)
        return subprocess.run(
            [sys.executable, "-B", "-m", "cedar_postgres", *arguments],
            check=True,
            text=True,
            env={**os.environ, "PYTHONPATH": path},
            stdout=subprocess.PIPE,
        ).stdout

    async def asyncSetUp(self) -> None:
        asyncio.get_running_loop().set_debug(False)
        self.cluster = await self.enterAsyncContext(Cluster(self.directory, patience_seconds=30))
        type(self).next_tenant += 1
        self.tenant = self.next_tenant

    def rows(self, server: str, tenant: int) -> dict[str, int]:
        """Returns how many rows each table of a server has of a tenant."""
        return {
            table: self.servers[server].sql(
                f"SELECT count(*) FROM cedar.{table} WHERE tenant = %s",
                tenant,
                dsn=self.servers[server].owner_dsn("tenants"),
            )[0][0]
            for table in TABLES
        }

    def leftovers(self) -> list[Any]:
        """Returns what a move must not leave behind."""
        found = []
        for server in self.servers.values():
            for statement in (
                "SELECT slot_name FROM pg_replication_slots",
                "SELECT pubname FROM pg_publication",
                "SELECT subname FROM pg_subscription",
                "SELECT tenant FROM cedar.tenants " "WHERE state <> 'here'",
            ):
                found += server.sql(statement, dsn=server.owner_dsn("tenants"))
        return found + self.servers["a"].sql("SELECT * FROM cedar.moves", dsn=self.admin_directory)

    async def create(self, server: str = "a", count: int = 30) -> Store:
        """Creates the tenant of this test with drawn contents. Returns a store with them."""
        rng = random.Random(self.tenant)
        self.store, self.policies = drawn.store(rng, count, Mode.COMPUTE), drawn.policy_set(rng, 50)
        entities = [self.store.entity(uid) for uid in self.store.uids()]
        await self.cluster.create_tenant(self.tenant, server=server)

        async def insert(draft: Any) -> None:
            await draft.add(entities)
            draft.merge(self.policies)

        await self.cluster.change(self.tenant, insert)
        return self.store

    async def check_contents(self, server: str) -> None:
        """Checks that a server has the tenant of this test with its contents, and the other has nothing."""
        self.assertEqual(await self.cluster._read_place(self.tenant), server)
        other = "b" if server == "a" else "a"
        self.assertEqual(set(self.rows(other, self.tenant).values()), {0})
        async with Cluster(self.directory, patience_seconds=30) as cluster:
            view = await cluster.view(self.tenant)
            self.assertTrue(view.store == self.store)
            self.assertTrue(view.policies == self.policies)
        self.assertEqual(self.leftovers(), [])


class Places(ClusterTest):
    async def test_tenants_are_placed_on_the_server_with_the_fewest(self) -> None:
        for tenant in range(100, 110):
            self.assertTrue(await self.cluster.create_tenant(tenant))
            self.assertFalse(await self.cluster.create_tenant(tenant))
        counts = dict(
            self.servers["a"].sql(
                "SELECT server, count(*) FROM cedar.directory GROUP BY server", dsn=self.admin_directory
            )
        )
        self.assertLessEqual(abs(counts["a"] - counts["b"]), 1)
        for tenant in range(100, 110):
            self.assertTrue(await self.cluster.drop_tenant(tenant))
            with self.assertRaises(NoTenant):
                await self.cluster.view(tenant)

    async def test_the_service_sees_no_connection_string_of_a_superuser(self) -> None:
        assert_denied(
            self,
            self.directory,
            "SELECT admin FROM cedar.servers",
            "SELECT * FROM cedar.moves",
            "UPDATE cedar.directory SET server = 'a'",
            "DELETE FROM cedar.servers",
        )


class Moves(ClusterTest):
    async def test_a_move_under_writers_loses_no_acknowledged_edit(self) -> None:
        await self.create(count=40)
        others = [
            Entity(f'Filler::"{number}"', [EntityUid('Filler::"0"')] if number else [], attrs={"n": number})
            for number in range(5000)
        ]
        await self.cluster.change(self.tenant, lambda draft: draft.add(others))
        writers = [Writer(self.cluster, self.tenant, number) for number in range(3)]
        tasks = [asyncio.create_task(writer.run()) for writer in writers]
        deadline = time.monotonic() + 120
        while sum(writer.changes for writer in writers) < 10 and time.monotonic() < deadline:
            await asyncio.sleep(0.1)
        before = sum(writer.changes for writer in writers)
        output = await asyncio.to_thread(self.command, "move", self.admin_directory, str(self.tenant), "b")
        await asyncio.sleep(0.5)
        for writer in writers:
            writer.is_stopped = True
        await asyncio.gather(*tasks)
        async with Cluster(self.directory, patience_seconds=30) as cluster:
            view = await cluster.view(self.tenant)
            lost = [
                user
                for writer in writers
                for user, group in writer.groups.items()
                if view.store.parents(user) != [group]
            ]
            self.assertEqual(lost, [])
            self.assertEqual(view.version, 3 + sum(writer.changes for writer in writers))
        self.assertGreaterEqual(before, 10)
        self.assertEqual(set(self.rows("a", self.tenant).values()), {0})
        self.assertEqual(self.leftovers(), [])
        print(
            f"move of {len(view.store)} entities: {output.splitlines()[-1]}; {sum(w.changes for w in writers)} "
            "changes, "
            f"the slowest took {max(w.longest for w in writers):.2f} s, 0 lost"
        )

    async def test_a_move_that_fails_after_any_step_goes_on(self) -> None:
        await self.create()
        target = "b"
        for step in STEPS:

            def fail(done: str) -> None:
                if done == step:
                    raise Interrupted

            with self.assertRaises(Interrupted):
                await asyncio.to_thread(Move(self.admin_directory, self.tenant, target, fail).run)
            await asyncio.to_thread(Move(self.admin_directory, self.tenant, target).run)
            await self.check_contents(target)
            target = "a" if target == "b" else "b"

    async def test_a_move_that_is_killed_after_any_step_goes_on(self) -> None:
        await self.create()
        target, path = "b", os.pathsep.join(folder for folder in sys.path if folder)
        for step in STEPS:
            command = [sys.executable, "-B", "-c", _KILLED, self.admin_directory, str(self.tenant), target, step]
            process = await asyncio.to_thread(subprocess.run, command, env={**os.environ, "PYTHONPATH": path})
            self.assertEqual(process.returncode, -signal.SIGKILL)
            await asyncio.to_thread(self.command, "move", self.admin_directory, str(self.tenant), target)
            await self.check_contents(target)
            target = "a" if target == "b" else "b"

    async def test_a_tenant_is_used_while_its_move_is_interrupted(self) -> None:
        """Until the fence and after the switch, an interrupted move disturbs nobody."""
        await self.create()
        for step in STEPS:

            def fail(done: str) -> None:
                if done == step:
                    raise Interrupted

            target = "a" if await self.cluster._read_place(self.tenant) == "b" else "b"
            with self.assertRaises(Interrupted):
                await asyncio.to_thread(Move(self.admin_directory, self.tenant, target, fail).run)
            if step not in ("fenced", "drained", "verified", "opened"):
                applied = await self.cluster.change(self.tenant, lambda draft: draft.add_static(f"{step} {target}"))
                self.assertIsNotNone(
                    (await self.cluster.view(self.tenant, token=applied.token)).policies.get(f"{step} {target}")
                )
            await asyncio.to_thread(Move(self.admin_directory, self.tenant, target).run)
        view = await self.cluster.view(self.tenant, token=(await self.cluster.view(self.tenant)).version)
        self.assertEqual(len([id for id in view.policies.bodies() if id.split(" ")[0] in STEPS]), len(STEPS) - 4)
        self.assertEqual(self.leftovers(), [])

    async def test_two_moves_of_one_tenant(self) -> None:
        await self.create()
        started, go_on = asyncio.Event(), asyncio.Event()
        loop = asyncio.get_running_loop()

        def pause(step: str) -> None:
            if step == "copied":
                loop.call_soon_threadsafe(started.set)
                asyncio.run_coroutine_threadsafe(go_on.wait(), loop).result()

        first = asyncio.create_task(asyncio.to_thread(Move(self.admin_directory, self.tenant, "b", pause).run))
        await started.wait()
        for target in ("a", "b"):
            with self.assertRaisesRegex(MoveError, "another move is running"):
                await asyncio.to_thread(Move(self.admin_directory, self.tenant, target, lock_seconds=0.2).run)
        waiting = asyncio.create_task(
            asyncio.to_thread(Move(self.admin_directory, self.tenant, "b", lock_seconds=120).run)
        )
        await asyncio.sleep(0.5)
        self.assertFalse(waiting.done())
        go_on.set()
        await first
        self.assertEqual((await waiting).seconds, 0)
        await self.check_contents("b")
        again = await asyncio.to_thread(Move(self.admin_directory, self.tenant, "b").run)
        self.assertEqual(again.seconds, 0)

    async def test_a_move_to_another_server_waits_for_the_first(self) -> None:
        await self.create()
        self.command("server", self.admin_directory, "c", "host=nowhere", self.servers["b"].owner_dsn("tenants"))
        self.addCleanup(
            self.servers["a"].sql, "DELETE FROM cedar.servers WHERE server = 'c'", dsn=self.admin_directory
        )

        def fail(step: str) -> None:
            if step == "copied":
                raise Interrupted

        with self.assertRaises(Interrupted):
            await asyncio.to_thread(Move(self.admin_directory, self.tenant, "b", fail).run)
        self.assertIn(f"tenant {self.tenant}: from a to b", self.command("moves", self.admin_directory))
        with self.assertRaisesRegex(MoveError, "on its way to b"):
            await asyncio.to_thread(Move(self.admin_directory, self.tenant, "c").run)
        await asyncio.to_thread(self.command, "cancel-move", self.admin_directory, str(self.tenant), "b")
        await self.check_contents("a")

    async def test_a_fenced_move_can_be_cancelled_until_it_has_opened(self) -> None:
        await self.create()
        for step, can_cancel in (("verified", True), ("opened", False)):

            def fail(done: str) -> None:
                if done == step:
                    raise Interrupted

            with self.assertRaises(Interrupted):
                await asyncio.to_thread(Move(self.admin_directory, self.tenant, "b", fail).run)
            move = Move(self.admin_directory, self.tenant, "b")
            if can_cancel:
                await asyncio.to_thread(move.cancel)
                await self.check_contents("a")
            else:
                with self.assertRaises(MoveError):
                    await asyncio.to_thread(move.cancel)
                await asyncio.to_thread(move.run)
        await self.check_contents("b")

    async def test_copies_that_differ_are_not_used(self) -> None:
        await self.create()

        def damage(step: str) -> None:
            if step == "drained":
                self.servers["b"].sql(
                    "UPDATE cedar.policies SET effect = 'forbid' WHERE tenant = %s AND effect = 'permit'",
                    self.tenant,
                    dsn=self.servers["b"].owner_dsn("tenants"),
                )

        with self.assertRaisesRegex(MoveError, "the copies differ"):
            await asyncio.to_thread(Move(self.admin_directory, self.tenant, "b", damage).run)
        self.assertEqual(set(self.rows("b", self.tenant).values()), {0})
        applied = await self.cluster.change(self.tenant, lambda draft: draft.add([Entity('New::"a"')]))
        self.store.add([Entity('New::"a"')])
        self.assertIn('New::"a"', (await self.cluster.view(self.tenant, token=applied.token)).store)
        await asyncio.to_thread(Move(self.admin_directory, self.tenant, "b").run)
        await self.check_contents("b")

    async def test_a_lost_slot_begins_the_copy_again(self) -> None:
        """After a failover, the new primary has no slot."""
        await self.create()

        def fail(done: str) -> None:
            if done == "fenced":
                raise Interrupted

        with self.assertRaises(Interrupted):
            await asyncio.to_thread(Move(self.admin_directory, self.tenant, "b", fail).run)
        for server in ("b", "a"):
            await asyncio.to_thread(self.servers[server].stop)
        await asyncio.to_thread(self.servers["a"].start)
        self.servers["a"].sql("SELECT pg_drop_replication_slot(%s)", f"cedar_move_{self.tenant}")
        await asyncio.to_thread(self.servers["b"].start)
        await asyncio.to_thread(Move(self.admin_directory, self.tenant, "b").run)
        await self.check_contents("b")

    async def test_a_move_of_what_is_not_there(self) -> None:
        for tenant, server, text in (
            (999, "b", "has no tenant 999"),
            (self.tenant, "nowhere", "has no server nowhere"),
        ):
            if tenant == self.tenant:
                await self.create()
            with self.assertRaisesRegex(MoveError, text):
                await asyncio.to_thread(Move(self.admin_directory, tenant, server).run)
        self.assertEqual(await reason_of(self.cluster.change(self.tenant, lambda draft: draft.unlink("x"))), "no link")
