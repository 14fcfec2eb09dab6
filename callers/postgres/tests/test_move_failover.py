"""Tests of moves while the primary of their source dies. Each group of servers has a replica, which takes over."""
from __future__ import annotations

import asyncio
import time
from typing import Any

import psycopg
from cedar_postgres import Cluster, DatabaseError
from cedar_postgres.move import Move, MoveError
from cedar_store import Entity
from stack_test import StackTest, stack
from test_move import TABLES

TENANT = 1


class MoveFailover(StackTest):
    async def asyncSetUp(self) -> None:
        await super().asyncSetUp()
        self.written, self.is_stopped = 0, False

    async def _write(self, cluster: Cluster) -> None:
        """Adds numbered policies, and repeats a change that fails, until it is stopped."""
        while not self.is_stopped:
            id = f"p{self.written}"
            try:
                await cluster.change(TENANT, lambda draft: draft.add_static(id), key=id)
                self.written += 1
            except DatabaseError:
                await asyncio.sleep(0.1)
            await asyncio.sleep(0.02)

    def _move(self, source: str, target: str, step: str) -> int:
        """Moves the tenant, and kills the primary of the source after a step. Returns how often the move was begun."""
        group = self.stack.groups[source]
        leader, killed = group.node_as("leader"), []

        def kill(done: str) -> None:
            if done == step and not killed:
                killed.append(done)
                leader.stop()

        begun, deadline = 0, time.monotonic() + 300
        while True:
            begun += 1
            try:
                Move(self.stack.directory("postgres"), TENANT, target, kill).run()
                break
            except (psycopg.Error, MoveError):
                self.assertLess(time.monotonic(), deadline, "the move does not go on")
                time.sleep(1)
        self.assertEqual(killed, [step])
        stack.wait_until(lambda: group.node_as("leader") is not leader, 180, "a new primary")
        leader.start()
        group.wait_for_replica()
        return begun

    def _sql(self, server: str, statement: str) -> list[Any]:
        with psycopg.connect(self.stack.groups[server].dsn("tenants", "postgres", False)) as connection:
            return connection.execute(statement.encode()).fetchall()

    async def test_the_primary_of_the_source_dies_during_a_move(self) -> None:
        async with Cluster(self.stack.directory(), patience_seconds=5) as cluster:
            await cluster.create_tenant(TENANT, server="b")
            entities = [Entity(f'A::"{n}"', [f'A::"{n // 8}"'] if n else [], attrs={"n": n}) for n in range(3000)]
            await cluster.change(TENANT, lambda draft: draft.add(entities))
            writer = asyncio.create_task(self._write(cluster))
            # The directory is in group a, so its primary dies with the source of the second move.
            for source, target, step in (("b", "a", "copied"), ("a", "b", "fenced"), ("b", "a", "opened")):
                before = self.written
                begun = await asyncio.to_thread(self._move, source, target, step)
                self.assertGreater(begun, 1)
                await self._compare(source, target, entities, before)
                print(f"primary of the source killed after the step {step}: the move was begun {begun} times, 0 lost")
            self.is_stopped = True
            await writer

    async def _compare(self, source: str, target: str, entities: list[Entity], before: int) -> None:
        """Checks that the target has the tenant with each acknowledged change, and that the move left nothing."""
        async with Cluster(self.stack.directory(), patience_seconds=30) as fresh:
            acknowledged = self.written
            self.assertGreater(acknowledged, before)
            self.assertEqual(await fresh._read_place(TENANT), target)
            view = await fresh.view(TENANT)
            ids = [f"p{number}" for number in range(len(view.policies))]
            self.assertEqual((view.policies.bodies(), len(view.store)), (ids, len(entities)))
            self.assertGreaterEqual(len(ids), acknowledged)
        for table in TABLES:
            self.assertEqual(self._sql(source, f"SELECT count(*) FROM cedar.{table} WHERE tenant = {TENANT}"), [(0,)])
        for server in (source, target):
            for name, view_name in (("slot_name", "pg_replication_slots"), ("subname", "pg_subscription")):
                found = self._sql(server, f"SELECT {name} FROM {view_name}")
                self.assertEqual([name for name, in found if name.startswith("cedar_move")], [])
            self.assertEqual(self._sql(server, "SELECT pubname FROM pg_publication"), [])
