"""Tests that a change does to the tables what its calls do to a store and a set in memory, also among other changes."""
from __future__ import annotations

import asyncio
import random
import time
from typing import Any

import drawn
import psycopg
from cedar_postgres import Applied, Conflict, Database, Draft, NoTenant, Retry
from cedar_store import Constraint, Effect, Entity, EntityUid, Mode, Policies, Store
from helpers import DatabaseTest, reason_by, reason_of
from limits import assert_within

NAMES = [EntityUid(f'A::"{name}"') for name in "abcdefgh"]


def random_edit(rng: random.Random, mode: Mode) -> tuple[str, list[Any]]:
    """Returns the name and the argument of a random edit of a store."""
    chosen = rng.sample(NAMES, rng.randrange(1, 3))
    if rng.random() < 0.3:
        return "remove", [*chosen, *(["no uid"] if rng.random() < 0.05 else [])]
    items = []
    for name in chosen:
        parents = rng.sample([*NAMES, EntityUid('A::"missing"')], rng.randrange(3))
        indirect = rng.sample(NAMES, rng.randrange(2)) if mode is not Mode.COMPUTE else []
        items.append(Entity(name, parents, attrs={"n": rng.randrange(2)}, indirect_ancestors=indirect))
    return rng.choice(("upsert", "add")), items


class Edits(DatabaseTest):
    async def _compare(self, mode: Mode, rounds: int, max_bytes: int) -> None:
        """Makes random changes of one to three edits, and compares the tables with a store after each."""
        rng, expected, reasons = random.Random(int(mode)), Store((), mode), set()
        writer, reader = await self.open(max_bytes=max_bytes), await self.open()
        await writer.create_tenant(1, mode)
        for _ in range(rounds):
            edits = [random_edit(rng, mode) for _ in range(rng.randrange(1, 4))]
            edited = expected.copy()
            reason = next(
                (reason for name, argument in edits if (reason := reason_by(getattr(edited, name), argument, mode))),
                "",
            )

            async def change(draft: Draft) -> None:
                for name, argument in edits:
                    await getattr(draft, name)(argument)

            token = (await reader.view(1)).version
            self.assertEqual(await reason_of(self._applied(writer, change)), reason, edits)
            expected = expected if reason else edited
            reasons.add(reason)
            view = await reader.view(1, token=(await writer.view(1)).version)
            self.assertGreaterEqual(view.version, token)
            self.assert_equal_stores(view.store, expected)
            if rng.random() < 0.05:
                reader.cache.drop(1)
        self.assertIn("duplicate", reasons)
        self.assertIn("not a uid", reasons)

    async def _applied(self, writer: Database, change: Any) -> Applied:
        return await writer.change(1, change)

    async def test_random_edits_of_a_computed_tenant(self) -> None:
        await self._compare(Mode.COMPUTE, 400, 1 << 20)

    async def test_random_edits_of_a_computed_tenant_on_slices(self) -> None:
        await self._compare(Mode.COMPUTE, 200, 1000)

    async def test_random_edits_of_an_assumed_tenant(self) -> None:
        await self._compare(Mode.ASSUME, 200, 1 << 20)

    async def test_random_edits_of_an_enforced_tenant(self) -> None:
        await self._compare(Mode.ENFORCE, 200, 1 << 20)

    async def test_random_changes_of_policies(self) -> None:
        rng, expected, reasons = random.Random(6), Policies(), set()
        other = await self.open()
        await self.database.create_tenant(1)
        for number in range(300):
            edited, seed = expected.copy(), rng.random()
            reason = reason_by(self._edit_policies, edited, edited, seed, number)
            result = await reason_of(
                self.database.change(1, lambda draft: self._edit_policies(draft, draft.policies, seed, number))
            )
            self.assertEqual(result, reason)
            expected = expected if reason else edited
            reasons.add(reason)
            token = (await self.database.view(1)).version
            self.assert_equal_policies((await self.database.view(1)).policies, expected)
            self.assert_equal_policies((await other.view(1, token=token)).policies, expected)
            if rng.random() < 0.05:
                other.cache.drop(1)
        self.assertLessEqual({"", "occupied", "with links", "not a link", "not a template"}, reasons)

    def _edit_policies(self, target: Any, policies: Policies, seed: float, number: int) -> None:
        """Makes one to three drawn edits, on a set or on a draft. `policies` has the state before."""
        rng = random.Random(seed)
        for place in range(rng.randrange(1, 4)):
            ids = [*policies.bodies(), *policies.policies(), "absent"]
            kind, id = rng.random(), rng.choice(ids)
            if kind < 0.5:
                drawn.insert_policy(rng, policies, number * 3 + place, target)
            elif kind < 0.6:
                target.add_static(id)
            elif kind < 0.75:
                target.remove_template(id)
            elif kind < 0.83:
                target.remove_static(id)
            elif kind < 0.95:
                target.unlink(id)
            else:
                other = Policies()
                other.add_template("m", Effect.FORBID, principal=Constraint.is_eq_slot())
                other.link("m", f"m{number}", principal='A::"b"')
                other.add_static("s")
                target.merge(other, rename=rng.random() < 0.7)

    async def test_a_snapshot_of_a_computed_entity_can_be_written_back(self) -> None:
        a, b, c, d = NAMES[:4]
        await self.database.create_tenant(1)
        await self.database.change(1, lambda draft: draft.add([Entity(a, [b]), Entity(b, [c])]))
        snapshot = (await self.database.view(1)).entity(a)
        self.assertEqual(snapshot.indirect_ancestors, {c})
        edited = Entity(a, snapshot.parents, attrs={"n": 1}, indirect_ancestors=snapshot.indirect_ancestors)
        await self.database.change(1, lambda draft: draft.upsert([edited]))
        self.assertEqual(self.sql("SELECT uid, indirect FROM cedar.entities WHERE indirect <> '{}'"), [])
        with self.assertRaises(ValueError):
            await self.database.change(1, lambda draft: draft.upsert([Entity(a, [b], indirect_ancestors=[d])]))


class Rows(DatabaseTest):
    def _row_versions(self, table: str) -> dict[Any, Any]:
        return dict(
            self.sql(
                f"SELECT CASE '{table}' WHEN 'parents' THEN to_jsonb(r) ->> 'child' || ' ' || "
                "(to_jsonb(r) ->> 'parent') ELSE coalesce(to_jsonb(r) ->> 'uid', to_jsonb(r) ->> 'id') END, "
                f"r.xmin::text || r.ctid::text FROM cedar.{table} r"
            )
        )

    def _differences(self, before: dict[Any, Any], after: dict[Any, Any]) -> set[Any]:
        return {key for key in before.keys() | after.keys() if before.get(key) != after.get(key)}

    async def test_a_change_writes_only_the_rows_that_change(self) -> None:
        a, b, c, d = NAMES[:4]
        await self.database.create_tenant(1)
        await self.database.change(
            1, lambda draft: draft.add([Entity(a, [b, c]), Entity(b, [d]), Entity(c), Entity(d)])
        )
        await self.database.change(1, lambda draft: [draft.add_static(f"p{number}") for number in range(50)])
        before = {table: self._row_versions(table) for table in ("entities", "parents", "policies")}

        async def change(draft: Draft) -> None:
            await draft.upsert([Entity(a, [b, d]), Entity(b, [d]), Entity(d, attrs={"n": 1})])
            draft.remove_static("p7")
            draft.add_static("new")

        await self.database.change(1, change)
        changed = {table: self._differences(rows, self._row_versions(table)) for table, rows in before.items()}
        self.assertEqual(changed, {"entities": {d}, "parents": {f"{a} {c}", f"{a} {d}"}, "policies": {"p7", "new"}})

    async def test_a_change_without_effect_writes_nothing(self) -> None:
        await self.database.create_tenant(1)
        token = (await self.database.change(1, lambda draft: draft.add([Entity(NAMES[0])]))).token
        for edit in (
            lambda draft: draft.add([Entity(NAMES[0])]),
            lambda draft: draft.remove([NAMES[1]]),
            lambda draft: "nothing",
        ):
            self.assertEqual((await self.database.change(1, edit)).token, token)
        self.assertEqual((await self.database.change(1, lambda draft: "nothing")).result, "nothing")

    async def test_the_tables_reject_invalid_rows(self) -> None:
        for row in (
            "(1, 'p', 1, 1, 'static', 'allow', '{}', '{}', '{}', '{}', NULL, NULL, NULL)",
            "(1, 'p', 1, 1, 'static', NULL, '{}', '{}', '{}', '{}', NULL, NULL, NULL)",
            "(1, 'p', 1, 1, 'link', 'permit', NULL, NULL, NULL, NULL, NULL, 't', '{}')",
            "(1, 'p', 1, 1, 'link', NULL, NULL, NULL, NULL, NULL, NULL, 'no template', '{}')",
        ):
            with self.assertRaises(psycopg.IntegrityError, msg=row):
                self.sql("INSERT INTO cedar.policies VALUES " + row)
        with self.assertRaises(psycopg.IntegrityError):
            self.sql("INSERT INTO cedar.parents VALUES (1, 'no entity', 'x')")


class Administrators(DatabaseTest):
    """Several administrators at the same time, each with a database object of its own, as in processes of their own."""

    async def asyncSetUp(self) -> None:
        await super().asyncSetUp()
        await self.database.create_tenant(1)
        self.administrators = [await self.open() for _ in range(4)]

    async def test_no_update_of_four_administrators_is_lost(self) -> None:
        async def work(number: int, database: Database) -> None:
            for place in range(25):
                applied = await database.change(1, lambda draft: draft.add_static(f"{number} {place}"))
                view = await database.view(1, token=applied.token)
                self.assertIsNotNone(view.policies.get(f"{number} {place}"))

        await asyncio.gather(*(work(*item) for item in enumerate(self.administrators)))
        view = await (await self.open()).view(1)
        self.assertEqual(sorted(view.policies.bodies()), sorted(f"{n} {k}" for n in range(4) for k in range(25)))
        self.assertEqual(view.version, 101)
        self.assertGreater(sum(database.conflicts for database in self.administrators), 0)
        for database in self.administrators:
            self.assert_equal_policies((await database.view(1, token=101)).policies, view.policies)

    async def test_one_of_two_edges_that_form_a_cycle_fails(self) -> None:
        async def add_edge(database: Database, child: EntityUid, parent: EntityUid) -> str:
            return await reason_of(database.change(1, lambda draft: draft.upsert([Entity(child, [parent])])))

        for number in range(40):
            a, b = EntityUid(f'A::"{number}"'), EntityUid(f'B::"{number}"')
            reasons = await asyncio.gather(
                add_edge(self.administrators[0], a, b), add_edge(self.administrators[1], b, a)
            )
            self.assertEqual(sorted(reasons), ["", "cycle"])

    async def test_a_read_and_write_of_a_counter_is_atomic(self) -> None:
        uid = EntityUid('Counter::"a"')
        await self.database.change(1, lambda draft: draft.add([Entity(uid, attrs={"n": 0})]))

        async def count(database: Database) -> None:
            for _ in range(20):

                async def increment(draft: Draft) -> None:
                    await asyncio.sleep(0)
                    base = await draft.slice([uid])
                    await draft.upsert([Entity(uid, attrs={"n": base.get(uid, "n") + 1})])

                await database.change(1, increment)

        await asyncio.gather(*map(count, self.administrators))
        self.assertEqual((await (await self.open()).view(1)).entity(uid).attrs, {"n": 80})

    async def test_a_slow_change_is_not_overtaken_for_ever(self) -> None:
        """From the third attempt on, a change holds the row of its tenant."""
        stop, attempts = asyncio.Event(), 0

        async def disturb() -> None:
            number = 0
            while not stop.is_set():
                number += 1
                await self.administrators[1].change(1, lambda draft: draft.add_static(f"d{number}"))

        async def slow(draft: Draft) -> None:
            nonlocal attempts
            attempts += 1
            draft.add_static("slow")
            await asyncio.sleep(0.1)

        task = asyncio.create_task(disturb())
        await asyncio.sleep(0.05)
        await self.administrators[0].change(1, slow)
        stop.set()
        await task
        self.assertEqual(attempts, 3)

    async def test_a_change_with_the_same_key_is_applied_once(self) -> None:
        tokens = {
            (await database.change(1, lambda draft: draft.add_static("p"), key="k")).token
            for database in self.administrators
        }
        self.assertEqual(tokens, {2})
        results = await asyncio.gather(
            *(database.change(1, lambda draft: draft.add_static("q"), key="l") for database in self.administrators),
            return_exceptions=True,
        )
        self.assertEqual({result.token for result in results if isinstance(result, Applied)}, {3})
        self.assertEqual((await self.database.view(1, token=3)).policies.bodies(), ["p", "q"])

    async def test_a_conflict_at_each_attempt_is_reported(self) -> None:
        async def change(draft: Draft) -> None:
            draft.add_static(f"own {draft.version}")
            if draft.version < 3:  # afterwards, the change holds the row
                await self.administrators[1].change(1, lambda other: other.add_static(f"other {draft.version}"))

        applied = await self.administrators[0].change(1, change)
        self.assertEqual((applied.token, self.administrators[0].conflicts), (4, 2))
        with self.assertRaises(NoTenant):
            await self.database.change(9, lambda draft: draft.add_static("p"))
        with self.assertRaises(Conflict):
            await self.database.import_tenant(1, Store(()), Policies())

    async def test_a_row_that_another_program_holds_delays_only_its_tenant(self) -> None:
        await self.database.create_tenant(2)
        with psycopg.connect(self.dsn) as connection:
            connection.execute("SELECT set_config('cedar.tenant', '1', true)")
            connection.execute("SELECT FROM cedar.tenants WHERE tenant = 1 FOR UPDATE")
            await self.database.change(2, lambda draft: draft.add_static("p"))
            impatient = await self.open(patience_seconds=3)
            with self.assertRaises(Retry):
                await impatient.change(1, lambda draft: draft.add_static("p"))
        self.assertEqual((await self.database.change(1, lambda draft: draft.add_static("p"))).token, 2)


class Costs(DatabaseTest):
    async def test_a_change_of_one_of_20000_policies_costs_what_it_changes(self) -> None:
        await self.database.create_tenant(1)
        await self.database.change(1, lambda draft: [draft.add_static(f"p{number}") for number in range(20000)])
        durations = []
        for number in range(20):
            start = time.process_time()
            await self.database.change(1, lambda draft: draft.add_static(f"n{number}"))
            durations.append(time.process_time() - start)
        assert_within(0.02, sorted(durations)[10])
        administrators = [await self.open() for _ in range(4)]
        for database in administrators:
            await database.view(1)
        start, processor = time.monotonic(), time.process_time()

        async def work(number: int, database: Database) -> None:
            for place in range(10):
                await database.change(1, lambda draft: draft.add_static(f"{number} {place}"))

        await asyncio.gather(*(work(*item) for item in enumerate(administrators)))
        seconds, processor = time.monotonic() - start, time.process_time() - processor
        print(
            f"20,000 policies: one more takes {sorted(durations)[10] * 1e3:.1f} ms of processor; 40 changes by four "
            f"administrators took {seconds:.2f} s, and {processor:.2f} s of processor of this process"
        )
        # By the clock it depends on the other work of the machine.
        assert_within(1, processor)
        view = await (await self.open()).view(1)
        self.assertEqual(len(view.policies.bodies()), 20060)

    async def test_a_change_of_one_of_10000_entities_costs_what_it_changes(self) -> None:
        await self.database.create_tenant(1)
        groups = [EntityUid(f'Group::"{number}"') for number in range(100)]
        entities = [Entity(EntityUid(f'User::"{number}"'), [groups[number % 100]]) for number in range(10000)]
        await self.database.change(1, lambda draft: draft.add(entities))
        await self.database.view(1)
        durations = []
        for number in range(20):
            start = time.process_time()
            edited = Entity(entities[number].uid, [groups[99]], attrs={"n": number})
            token = (await self.database.change(1, lambda draft: draft.upsert([edited]))).token
            durations.append(time.process_time() - start)
            self.assertEqual((await self.database.view(1, token=token)).ancestors(edited.uid), [groups[99]])
        print(f"10,000 entities: the change of one takes {sorted(durations)[10] * 1e3:.1f} ms of processor")
        assert_within(0.02, sorted(durations)[10])
