"""Tests of numbers of uids."""
import unittest

from cedar_store import CedarError, Closed, Store

A, B, C, E = [f'A::"{name}"' for name in ("a", "b", "c", "\u00e9")]


class Numbers(unittest.TestCase):
    def assert_fails(self, reason, call, *arguments):
        with self.assertRaises(CedarError) as caught:
            call(*arguments)
        self.assertEqual(caught.exception.reason, reason)
        self.assertRegex(str(caught.exception), f"^{reason} .")
        self.assertTrue(caught.exception.names)

    def test_a_uid_has_one_number(self):
        store = Store({A: [B]})
        a, c, e = [store.number(uid) for uid in (A, C, E)]
        self.assertEqual([store.number(uid) for uid in (E, C, A)], [e, c, a])
        self.assertEqual(len({a, c, e}), 3)
        self.assertEqual([store.uid_of_number(number) for number in (a, c, e)], [A, C, E])
        self.assert_fails("not a uid", store.number, "a")

    def test_queries_by_number(self):
        store = Store({A: [B], B: [C]})
        a, b, c = [store.number(uid) for uid in (A, B, C)]
        self.assertEqual([store.has_number(number) for number in (a, b, c)], [True, True, False])
        self.assertEqual([store.is_descendant_of_numbers(a, number) for number in (a, b, c)], [False, True, True])
        self.assert_fails("no entity", store.is_descendant_of_numbers, c, a)

    def test_edits_do_not_change_numbers(self):
        store = Store({A: [B], B: [C]})
        a, e = store.number(A), store.number(E)
        store.upsert({B: [E]})
        self.assertTrue(store.is_descendant_of_numbers(a, e))
        self.assertRaises(CedarError, store.add, {E: [A]})
        self.assertEqual([store.number(A), store.number(E)], [a, e])
        store.remove([A])
        self.assertFalse(store.has_number(a))

    def test_numbers_without_a_uid(self):
        store = Store({A: [B]})
        a = store.number(A)
        with store.copy() as copied, store.slice([A]) as part:
            for other in (copied, part):
                self.assert_fails("bad argument", other.has_number, a)
        for invalid in (a + 1, -1, 2**31, 2**32 + a, 2**63, 2**64 + a, -(2**64) + a, 2**70):
            self.assert_fails("bad argument", store.has_number, invalid)
            self.assert_fails("bad argument", store.uid_of_number, invalid)
            self.assert_fails("bad argument", store.is_descendant_of_numbers, a, invalid)
            self.assert_fails("bad argument", store.is_descendant_of_numbers, invalid, a)
        for invalid in ("a", 1.5, None):
            self.assertRaises(TypeError, store.has_number, invalid)
            self.assertRaises(TypeError, store.uid_of_number, invalid)
            self.assertRaises(TypeError, store.is_descendant_of_numbers, a, invalid)

    def test_numbers_of_2000_uids_with_40_types(self):
        uids = [f'T{k % 40}::"n{k}"' for k in range(2000)]
        store = Store({uid: [A] for uid in uids})
        numbers = [store.number(uid) for uid in uids]
        parent = store.number(A)
        self.assertTrue(all(store.is_descendant_of_numbers(number, parent) for number in numbers))
        self.assertTrue(all(store.is_descendant_of(uid, A) and uid in store for uid in uids))
        self.assertEqual([store.uid_of_number(number) for number in numbers], uids)

    def test_calls_on_a_closed_store(self):
        with Store({A: [B]}) as store:
            a = store.number(A)
        self.assertRaises(Closed, store.number, A)
        self.assertRaises(Closed, store.has_number, a)
        self.assertRaises(Closed, store.uid_of_number, a)
        self.assertRaises(Closed, store.is_descendant_of_numbers, a, a)
