"""Tests of tenants in memory: how fresh they are, how much memory they take, and how fast they are."""
from __future__ import annotations

import asyncio
import contextlib
import os
import random
import signal
import time

from cedar_postgres import Behind, Database, NoTenant, NotInSlice
from cedar_store import Constraint, Entity, EntityUid, Store, values
from helpers import DatabaseTest, reason_by
from limits import assert_within

ALICE = EntityUid('User::"alice"')


def group(number: int) -> EntityUid:
    return EntityUid(f'Group::"{number}"')


def user(number: int) -> EntityUid:
    return EntityUid(f'User::"{number}"')


def staff(count: int, rng: random.Random) -> list[Entity]:
    """Returns users in groups, with attributes. One of 50 entities is a group."""
    groups = max(count // 50, 2)
    entities = [Entity(group(number), [group(rng.randrange(number))] if number else []) for number in range(groups)]
    for number in range(count - groups):
        parents = {group(rng.randrange(groups)) for _ in range(rng.randrange(4))}
        entities.append(Entity(user(number), parents, attrs={"age": number % 90, "name": f"user {number}"}))
    return entities


def memory() -> int:
    """Returns how many bytes of memory this process uses."""
    with open("/proc/self/statm") as statm:
        return int(statm.read().split()[1]) * os.sysconf("SC_PAGE_SIZE")


class Freshness(DatabaseTest):
    async def asyncSetUp(self) -> None:
        await super().asyncSetUp()
        await self.database.create_tenant(1)
        self.reader = await self.open()
        self.number = 0
        await self._write()
        await self.reader.view(1)

    async def _write(self) -> int:
        """Moves Alice to the next group. Returns the token."""
        self.number += 1
        entity = Entity(ALICE, [group(self.number)])
        return (await self.database.change(1, lambda draft: draft.upsert([entity]))).token

    async def _seconds_until_seen(self) -> float:
        """Writes, and returns how long readers without a token see the state before it."""
        await self._write()
        start = time.monotonic()
        while not (await self.reader.view(1)).is_descendant_of(ALICE, group(self.number)):
            await asyncio.sleep(0.001)
        return time.monotonic() - start

    def _listeners(self) -> list[int]:
        """Returns the server processes of the listening connections of both databases."""
        return [
            pid
            for pid, in self.sql(
                "SELECT pid FROM pg_stat_activity WHERE datname = current_database() AND query LIKE '%cedar.versions%' "
                "AND pid <> pg_backend_pid()"
            )
        ]

    async def test_a_request_with_the_token_of_a_write_sees_it(self) -> None:
        for _ in range(100):
            token = await self._write()
            view = await self.reader.view(1, token=token)
            self.assertGreaterEqual(view.version, token)
            self.assertTrue(view.is_descendant_of(ALICE, group(self.number)))

    async def test_a_notification_makes_a_change_visible(self) -> None:
        seconds = sorted([await self._seconds_until_seen() for _ in range(50)])
        print(
            f"a change is seen by other processes after {seconds[25] * 1e3:.1f} ms (median of 50), at most "
            f"{seconds[-1] * 1e3:.0f} ms"
        )
        assert_within(0.2, seconds[25])
        assert_within(1.5, seconds[-1])

    async def test_without_notifications_a_change_is_seen_by_the_next_question(self) -> None:
        ((definition,),) = self.sql("SELECT pg_get_functiondef('cedar.apply'::regproc)")
        self.assertIn("PERFORM pg_notify", definition)
        self.sql(definition.replace("PERFORM pg_notify", "PERFORM concat"))
        seconds = [await self._seconds_until_seen() for _ in range(10)]
        self.assertGreater(max(seconds), 0.02)
        assert_within(1.5, max(seconds))

    async def test_a_lost_connection_of_the_listener_is_opened_again(self) -> None:
        for _ in range(5):
            await asyncio.sleep(0.3)
            self.assertGreaterEqual(len(self._listeners()), 1)
            self.sql("SELECT pg_terminate_backend(pid) FROM unnest(%s::int[]) AS pid", self._listeners())
            assert_within(1.5, await self._seconds_until_seen())

    async def test_a_silent_listener_delays_a_change_for_the_lease(self) -> None:
        await asyncio.sleep(0.5)
        pids = self._listeners()
        self.assertGreaterEqual(len(pids), 2)
        for pid in pids:
            os.kill(pid, signal.SIGSTOP)
        try:
            for _ in range(3):
                assert_within(1.5, await self._seconds_until_seen())
        finally:
            for pid in pids:
                with contextlib.suppress(ProcessLookupError):
                    os.kill(pid, signal.SIGCONT)
        await asyncio.sleep(1.5)
        assert_within(1.5, await self._seconds_until_seen())

    async def test_a_token_of_the_future_is_not_answered(self) -> None:
        reader = await self.open(patience_seconds=0.2)
        with self.assertRaises(Behind):
            await reader.view(1, token=99)

    async def test_a_dropped_tenant_is_not_answered(self) -> None:
        await self.database.drop_tenant(1)
        await asyncio.sleep(1.1)
        with self.assertRaises(NoTenant):
            await self.reader.view(1)

    async def test_a_cache_that_is_far_behind_reads_everything_again(self) -> None:
        slow = await self.open()
        await slow.view(1)
        with contextlib.suppress(AttributeError):
            await slow._listener.stop()
        self.sql("DELETE FROM cedar.changes WHERE version = 2")
        self.sql("UPDATE cedar.tenants SET version = 1")
        self.sql("UPDATE cedar.tenants SET version = 5000")
        token = await self._retry_write()
        self.assertEqual((await slow.view(1, token=token)).version, token)

    async def _retry_write(self) -> int:
        self.database.cache.drop(1)
        return await self._write()


class Memory(DatabaseTest):
    async def test_the_cache_stays_below_its_bound(self) -> None:
        rng = random.Random(7)
        for tenant in range(40):
            await self.database.create_tenant(tenant)
            await self.database.change(tenant, lambda draft: draft.add(staff(1000, rng)))
        database = await self.open(max_bytes=32 << 20)
        for _ in range(2):
            for tenant in range(40):
                view = await database.view(tenant)
                self.assertTrue(view.is_whole)
                self.assertLessEqual(database.cache.bytes, 32 << 20)
        self.assertLess(len(database.cache.tenants()), 25)
        self.assertGreater(len(database.cache.tenants()), 5)

    async def test_the_counted_bytes_are_those_of_the_process(self) -> None:
        rng = random.Random(8)
        for tenant in range(60):
            await self.database.create_tenant(tenant)
            await self.database.change(tenant, lambda draft: draft.add(staff(1000, rng)))
            await self.database.change(
                tenant,
                lambda draft: [
                    draft.add_static(
                        f"p{number}",
                        principal=Constraint.is_in(group(number)),
                        when=values.RESOURCE.is_in(values.PRINCIPAL),
                    )
                    for number in range(200)
                ],
            )
        database = await self.open()
        for tenant in range(10):
            await database.view(tenant)
        before, counted = memory(), database.cache.bytes
        for tenant in range(10, 60):
            await database.view(tenant)
        used, counted = memory() - before, database.cache.bytes - counted
        print(
            f"50 tenants with 1,000 entities and 200 policies take {used / 50e3:.0f} kB each; the cache counts "
            f"{counted / 50e3:.0f} kB"
        )
        self.assertLess(used, counted * 1.3)
        self.assertGreater(used, counted * 0.4)

    async def test_a_tenant_that_is_too_large_is_read_by_slices(self) -> None:
        rng = random.Random(9)
        entities = staff(3000, rng)
        await self.database.create_tenant(1)
        await self.database.change(1, lambda draft: draft.add(entities))
        database = await self.open(max_bytes=4 << 20)
        with Store(entities) as whole:
            for _ in range(300):
                uids = [rng.choice(entities).uid, EntityUid('Action::"view"'), rng.choice(entities).uid]
                view = await database.view(1, uids)
                self.assertFalse(view.is_whole)
                self.assertTrue(view.store == whole.slice(uids))
                for uid in uids:
                    self.assertEqual(uid in view, uid in whole)
                    if uid in whole:
                        self.assertEqual(view.ancestors(uid), whole.ancestors(uid))
                        self.assertEqual(view.entity(uid), whole.entity(uid))
        view = await database.view(1, [user(1)])
        for call in (
            view.ancestors,
            view.entity,
            lambda uid: uid in view,
            lambda uid: view.is_descendant_of(uid, uid),
        ):
            self.assertRaises(NotInSlice, call, user(2))
        self.assertEqual(reason_by(view.ancestors, "no uid"), "not a uid")
        self.assertEqual(database.cache.get(1).store, None)
        token = (await self.database.change(1, lambda draft: draft.add_static("p"))).token
        self.assertIsNotNone((await database.view(1, [user(1)], token)).policies.get("p"))
        token = (await database.change(1, lambda draft: draft.upsert([Entity(user(1), [group(0)])]))).token
        self.assertEqual((await database.view(1, [user(1)], token)).ancestors(user(1)), [group(0)])


class Speed(DatabaseTest):
    async def _checks(self, count: int) -> None:
        rng = random.Random(count)
        await self.database.create_tenant(1)
        await self.database.change(1, lambda draft: draft.add(staff(count, rng)))
        pairs = [(user(rng.randrange(count // 2)), group(rng.randrange(count // 50))) for _ in range(50000)]
        await self.database.view(1)
        seconds = 0.0
        for first in range(0, len(pairs), 5000):
            await asyncio.sleep(0)
            start = time.process_time()
            for child, ancestor in pairs[first : first + 5000]:
                (await self.database.view(1)).is_descendant_of(child, ancestor)
            seconds += time.process_time() - start
        print(f"{count} entities: {len(pairs) / seconds:,.0f} checks a second of processor")
        assert_within(10e-6, seconds / len(pairs))

    async def test_checks_of_1000_entities(self) -> None:
        await self._checks(1000)

    async def test_checks_of_50000_entities(self) -> None:
        await self._checks(50000)

    async def test_the_refresh_of_a_large_tenant_costs_what_has_changed(self) -> None:
        await self.database.create_tenant(1)
        await self.database.change(1, lambda draft: draft.add(staff(50000, random.Random(10))))
        reader = await self.open()
        await reader.view(1)
        seconds = []
        for number in range(12):
            # A new entity, so that the refresh looks for the entities that it affects.
            new = Entity(EntityUid(f'New::"{number}"'), [group(number)])
            token = (await self.database.change(1, lambda draft: draft.add([new]))).token
            start = time.process_time()
            self.assertTrue((await reader.view(1, token=token)).is_descendant_of(new.uid, group(number)))
            seconds.append(time.process_time() - start)
        median = sorted(seconds)[6]
        print(f"50,000 entities: the refresh after the change of one takes {median * 1e3:.1f} ms of processor")
        assert_within(0.005, median)

    async def test_many_tasks_wait_for_one_read(self) -> None:
        await self.database.create_tenant(1)
        await self.database.change(1, lambda draft: draft.add(staff(5000, random.Random(1))))
        database: Database = await self.open()
        views = await asyncio.gather(*(database.view(1) for _ in range(200)))
        self.assertEqual({id(view.store) for view in views}, {id(views[0].store)})
