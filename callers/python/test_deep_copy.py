"""Tests of deep copies that other threads use. `test_cedar_store.py` runs them too."""
import concurrent.futures
import pickle
import unittest
import warnings

from cedar_store import CedarError, Closed, Constraint, Effect, Entity, EntityUid, Policies, Store
from cedar_store.values import PRINCIPAL, RESOURCE
from test_support import entities, resident_bytes, uid


def on_thread(call):
    """Calls a function on another thread. Returns its result, or raises its exception."""
    with concurrent.futures.ThreadPoolExecutor(1) as pool:
        return pool.submit(call).result()


class DeepCopies(unittest.TestCase):
    large = {uid(n): [uid(n // 8)] for n in range(1, 301)}

    def test_eight_threads_use_deep_copies_of_a_store(self):
        new_entities = [
            Entity(uid("a"), attrs={"k": frozenset([1, "é"]), "l": {"m": EntityUid(uid("b"))}}, parents=[uid("b")]),
            Entity(uid("b"), tags={"t": 3}, parents=[uid("c")]),
        ]
        store = Store(new_entities)
        store.partial()
        copies, slices = [], []
        for _ in range(8):
            copies.append(store.deep_copy())
            slices.append(store.slice_deep_copy([uid("b")]))
        self.assertEqual(repr(copies[0]), "<Store of 2 entities>")

        def query(copy, part):
            results = [copy.is_partial(), part.is_partial(), len(copy), len(part)]
            results.append(copy.entity(uid("a")) == new_entities[0])
            for _ in range(20):
                edited = copy.copy()
                edited.upsert({uid("x"): [uid("a")]})
                results.append(edited.is_descendant_of(uid("x"), uid("c")) and edited != copy)
                results.append(copy.deep_copy() == copy and part.tags_len(uid("b")) == 1)
            return results

        with concurrent.futures.ThreadPoolExecutor(8) as pool:
            futures = [pool.submit(query, copy, part) for copy, part in zip(copies, slices)]
            expected = query(store, store.slice([uid("b")]))
            for future in futures:
                self.assertEqual(future.result()[:4], [True, False, 2, 1])
                self.assertEqual(future.result()[4:], expected[4:])
            self.assertTrue(all(expected[5:]))
        self.assertTrue(all(store == copy for copy in copies) and pickle.loads(pickle.dumps(slices[0])) == slices[1])

    def test_any_thread_calls_a_deep_copy(self):
        store = Store(entities(("a", "b"), ("b", "c")))
        for call in (
            lambda other: other == store and store == other,
            lambda other: uid("a") in other,
            lambda other: other.is_descendant_of(uid("a"), uid("c")),
            lambda other: len(other) == 2,
            lambda other: other.copy() == store,
            lambda other: store.entity_equal(uid("a"), other),
            lambda other: pickle.loads(pickle.dumps(other)) == store,
            lambda other: other.deep_copy().slice_deep_copy([uid("b")]) == store.slice([uid("b")]),
            lambda other: other.close() is None,
        ):
            other = store.deep_copy()
            self.assertTrue(on_thread(lambda: call(other)) and call(store.deep_copy()))
        with self.assertRaises(CedarError):
            store.slice_deep_copy(["no uid"])
        store.close()
        with self.assertRaises(Closed):
            store.deep_copy()

    def test_any_thread_frees_a_deep_copy(self):
        store = Store(self.large)
        with warnings.catch_warnings():
            warnings.simplefilter("error")
            for _ in range(2):
                before = resident_bytes()
                for _ in range(200):
                    copies = [store.deep_copy()]
                    copies.clear()
                    copies = [store.deep_copy()]
                    on_thread(copies.clear)
        # Four hundred copies take more than eighty megabytes.
        self.assertLess(resident_bytes() - before, 8 << 20)

    def test_four_threads_use_deep_copies_of_a_policy_set(self):
        policies = Policies()
        policies.add_static("s", Effect.FORBID)
        slot, when = Constraint.is_eq_slot(), PRINCIPAL.eq(RESOURCE)
        policies.add_template("t", principal=slot, when=when, annotations={"if": "é"})
        policies.link("t", "l", principal=uid("a"))
        policies.add_static("w")
        copies = [policies.deep_copy() for _ in range(4)]

        def query(copy):
            for _ in range(50):
                edited = copy.copy()
                edited.unlink("l")
                edited.merge(copy)
                results = copy.bodies(), copy.policies(), str(copy), edited.policies(), copy.deep_copy() == copy
            return results

        with concurrent.futures.ThreadPoolExecutor(4) as pool:
            futures = [pool.submit(query, copy) for copy in copies]
            expected = query(policies)
            self.assertEqual(expected[:2], (["s", "t", "w"], ["s", "l", "w"]))
            for future in futures:
                self.assertEqual(future.result(), expected)
        self.assertEqual((policies == copies[0], policies.merge(copies[0])), (True, {}))
        self.assertTrue(policies.deep_copy() == policies)
