"""Tests that everything that the library has is stored and read back equal."""
from __future__ import annotations

import random
import unittest

import drawn
from cedar_postgres.encoding import (
    LongTexts,
    decode_entity,
    decode_expr,
    decode_term,
    encode_entity,
    encode_expr,
    encode_policy,
    encode_term,
    escape,
    insert_policy,
    insertion_order,
    unescape,
)
from cedar_store import Entity, EntityUid, Mode, Policies, Store, values
from helpers import DatabaseTest
from psycopg.types.json import Jsonb


class Encoding(unittest.TestCase):
    def test_escaped_texts_are_distinct(self) -> None:
        rng, seen = random.Random(1), {}
        for _ in range(3000):
            text = "".join(rng.choice("\0\x01\x02012a") for _ in range(rng.randrange(6)))
            escaped = escape(text)
            self.assertEqual(unescape(escaped), text)
            self.assertFalse({"\0", "\x02"} & set(escaped))
            self.assertEqual(seen.setdefault(escaped, text), text)

    def test_values_and_expressions(self) -> None:
        rng, kinds = random.Random(2), set()
        for _ in range(3000):
            value, expr = drawn.value(rng), drawn.expr(rng, 5, has_slots=True)
            self.assertTrue(values.same(decode_term(encode_term(value)), value))
            self.assertEqual(decode_expr(encode_expr(expr)), expr)
            self.assertEqual(decode_term(encode_term(expr)), expr)
            kinds.add(type(expr))
        self.assertEqual(
            kinds,
            {
                values.Lit,
                values.Var,
                values.Slot,
                values.UnknownExpr,
                values.SetOf,
                values.Call,
                values.Not,
                values.And,
                values.Eq,
                values.In,
                values.Is,
            },
        )

    def test_deep_terms(self) -> None:
        """Neither the encoder nor JSON has the depth of a term."""
        value, expr = drawn.nested(10000), values.PRINCIPAL
        for _ in range(10000):
            expr = ~expr
        self.assertTrue(values.same(decode_term(encode_term(value)), value))
        self.assertEqual(decode_expr(encode_expr(expr)), expr)

    def test_a_long_text_has_a_key_that_no_other_text_has(self) -> None:
        texts = LongTexts()
        long = "\0" * 500
        self.assertEqual(texts.text(texts.key(long)), long)
        self.assertEqual(len(texts.texts), 1)
        self.assertNotEqual(texts.key(texts.key(long)), texts.key(long))
        self.assertEqual(texts.text(texts.key(texts.key(long))), texts.key(long))


class Tables(DatabaseTest):
    async def test_drawn_stores_of_every_mode(self) -> None:
        rng = random.Random(3)
        for tenant in range(60):
            mode = list(Mode)[tenant % 3]
            expected = drawn.store(rng, rng.choice((0, 1, 5, 40)), mode)
            if rng.random() < 0.3:
                expected.partial()
            await self._store(tenant, expected, mode)

    async def _store(self, tenant: int, expected: Store, mode: Mode) -> None:
        """Writes a store, and reads it back with an empty cache."""
        entities = [expected.entity(uid) for uid in expected.uids()]
        await self.database.create_tenant(tenant, mode, expected.is_partial())
        await self.database.change(tenant, lambda draft: draft.upsert(entities))
        other = await self.open()
        view = await other.view(tenant)
        self.assert_equal_stores(view.store, expected)
        await other.close()

    async def test_entities_with_sets_that_python_cannot_have(self) -> None:
        expected = Store([Entity('A::"a"', attrs={"set": [True, 1, [0, False]]}, tags={"t": ({"a": [1, True]},)})])
        await self.database.create_tenant(1)
        await self.database.change(1, lambda draft: draft.upsert([expected[uid] for uid in expected]))
        await self.database.import_tenant(2, expected, Policies())
        for tenant in (1, 2):
            self.assert_equal_stores((await self.database.view(tenant)).store, expected)

    async def test_a_set_of_1000_drawn_policies(self) -> None:
        rng = random.Random(4)
        expected = drawn.policy_set(rng, 1000)
        await self.database.create_tenant(1)
        await self.database.change(1, lambda draft: draft.merge(expected))
        other = await self.open()
        stored = (await other.view(1)).policies
        self.assert_equal_policies(stored, expected)
        for id in expected.bodies():
            self.assertEqual(stored.non_scope_constraints(id), expected.non_scope_constraints(id))
            self.assertEqual(stored.annotations(id), expected.annotations(id))
            for constraint in ("principal_constraint", "action_constraint", "resource_constraint"):
                self.assertEqual(getattr(stored, constraint)(id), getattr(expected, constraint)(id))
        links = [id for id in expected.policies() if id not in set(expected.bodies())]
        self.assertGreater(len(links), 100)
        self.assertEqual(
            [(stored.env(id), stored.template_id(id)) for id in links],
            [(expected.env(id), expected.template_id(id)) for id in links],
        )
        self.assertEqual(str(stored), str(expected))

    async def test_import_of_a_store_with_ancestors_of_its_own(self) -> None:
        a, b, c = (EntityUid(f'A::"{name}"') for name in "abc")
        for tenant, mode in ((1, Mode.COMPUTE), (2, Mode.ASSUME)):
            store = Store([Entity(a, [b], indirect_ancestors=[c]), Entity(b, attrs={"é\0": "\0"})], mode)
            policies = Policies()
            policies.add_static("p\0")
            await self.database.import_tenant(tenant, store, policies)
            other = await self.open()
            view = await other.view(tenant)
            self.assert_equal_stores(view.store, store)
            self.assert_equal_policies(view.policies, policies)

    async def test_rows_survive_postgresql_unchanged(self) -> None:
        rng = random.Random(5)
        for _ in range(300):
            entity, texts = drawn.entity(rng, drawn.uid(rng), [drawn.uid(rng)]), LongTexts()
            row = encode_entity(entity, texts)
            ((stored,),) = self.sql("SELECT %s", Jsonb(row))
            names = ("uid", "parents", "indirect", "attributes", "tags")
            self.assertEqual(decode_entity([stored[name] for name in names], texts), entity)
        policies = drawn.policy_set(rng, 200)
        copy = Policies()
        for id in insertion_order(policies):
            texts = LongTexts()
            ((stored,),) = self.sql("SELECT %s", Jsonb(encode_policy(policies, id, texts)))
            insert_policy(copy, stored, texts)
        self.assertTrue(copy == policies)
