"""The tests of the package. The last line is `N passed, M failed`."""
import concurrent.futures
import copy
import gc
import io
import multiprocessing
import os
import pickle
import re
import shutil
import subprocess
import sys
import tempfile
import threading
import unittest
import warnings

import cedar_store
from cedar_store import _statuses
from cedar_store._statuses import STATUSES
from cedar_store import (
    CedarError,
    Closed,
    Constraint,
    Effect,
    Entity,
    EntityUid,
    Mode,
    Policies,
    Store,
    Unknown,
    is_uid,
    run,
    status_text,
    version,
)
from test_support import entities, resident_bytes, uid

ZEROS = bytes(16)


class Stores(unittest.TestCase):
    def test_build_and_query(self):
        with Store(entities(("a", "b"), ("b", "c"), ("x", ""))) as store:
            self.assertEqual(len(store), 3)
            self.assertTrue(uid("a") in store and uid("c") not in store)
            self.assertTrue(store.is_descendant_of(uid("a"), uid("c")))
            self.assertFalse(store.is_descendant_of(uid("a"), uid("a")))
            self.assertEqual(store.ancestors(uid("a")), [uid("b"), uid("c")])
            self.assertEqual(store.parents(uid("a")), [uid("b")])
            self.assertEqual(store.ancestors(uid("x")), [])
            store.validate()

    def test_add_upsert_and_remove(self):
        store = Store(entities(("a", "b")))
        store.add(entities(("b", "c")))
        self.assertTrue(store.is_descendant_of(uid("a"), uid("c")))
        store.upsert(entities(("b", "d")))
        self.assertEqual(store.ancestors(uid("a")), [uid("b"), uid("d")])
        store.remove([uid("b"), uid("z")])
        self.assertEqual((len(store), store.ancestors(uid("a"))), (1, []))

    def test_copy_and_slice(self):
        store = Store(entities(("a", "b"), ("b", "c"), ("c", ""), ("x", "c")))
        other = store.copy()
        self.assertTrue(other == store)
        other.remove([uid("x")])
        self.assertFalse(other == store)
        self.assertEqual(len(store.slice([uid("b"), uid("z")])), 2)

    def test_failed_edits_report_the_reason_and_change_nothing(self):
        store = Store(entities(("a", "b")))
        for new_entities, reason in ((entities(("b", "a")), "cycle"), (entities(("a", "x"), ("a", "y")), "duplicate")):
            with self.assertRaises(CedarError) as caught:
                store.add(new_entities)
            self.assertEqual(caught.exception.reason, reason)
            self.assertEqual((len(store), store.ancestors(uid("a"))), (1, [uid("b")]))
        with self.assertRaises(CedarError) as caught:
            Store(entities(("a", "b"), ("b", "c")), Mode.ENFORCE)
        self.assertEqual(str(caught.exception), 'ancestors not closed at A::"a" A::"b" A::"c"')
        with self.assertRaises(CedarError) as caught:
            store.ancestors(uid("z"))
        self.assertEqual(caught.exception.reason, "no entity")
        with self.assertRaises(CedarError) as caught:
            store.ancestors("a")
        self.assertEqual(caught.exception.reason, "not a uid")

    def test_errors_name_the_items_concerned(self):
        for call, index, text in (
            (lambda: Store({uid("a"): [uid("b"), "b"]}), 2, "b"),
            (lambda: Store([(uid("a"), []), ('A::"é"x', [])]), 1, 'A::"é"x'),
            (lambda: Store().remove([""]), 0, ""),
            (lambda: Store().slice([uid("a"), uid("b"), "A"]), 2, "A"),
            (lambda: Entity(uid("a"), ["x"]), None, "x"),
        ):
            with self.assertRaises(CedarError) as caught:
                call()
            error = caught.exception
            self.assertEqual((error.reason, error.index, str(error)), ("not a uid", index, "not a uid " + text))
            self.assertEqual((error.names, error.uids, error.text), ((text,), (), text))
            unpickled = pickle.loads(pickle.dumps(error))
            self.assertEqual((unpickled.reason, unpickled.index), (error.reason, index))
            self.assertEqual(str(unpickled), str(error))
        escaped = EntityUid.make("A", 'x " \\ é')
        with self.assertRaises(CedarError) as caught:
            Store([(escaped, [uid("b")]), (escaped, [uid("c")])])
        error = caught.exception
        self.assertEqual((error.names, error.uids, error.index), ((escaped,), (escaped,), None))
        policies = Policies()
        policies.add_static("a b", Effect.PERMIT)
        with self.assertRaises(CedarError) as caught:
            policies.add_static("a b", Effect.PERMIT)
        self.assertEqual((caught.exception.names, caught.exception.uids), (("a b",), ()))

    def test_modes_assume_and_enforce(self):
        store = Store(entities(("a", "b"), ("b", "c")), Mode.ASSUME)
        self.assertEqual(store.ancestors(uid("a")), [uid("b")])
        with self.assertRaises(CedarError) as caught:
            store.validate()
        self.assertEqual((caught.exception.reason, len(store)), ("not closed", 2))
        enforced = Store(entities(("a", "bc"), ("b", "c")), Mode.ENFORCE)
        self.assertTrue(enforced == Store(entities(("a", "b"), ("b", "c"))))

    def test_key(self):
        random_key, fixed_key = Store(entities(("a", "b"))), Store(entities(("a", "b")), key=ZEROS)
        self.assertTrue(random_key == fixed_key and fixed_key.copy() == random_key)
        self.assertEqual(fixed_key.slice([uid("a")]).ancestors(uid("a")), [uid("b")])
        for key in (b"", bytes(15), bytes(17)):
            with self.assertRaises(ValueError):
                Store(key=key)

    def test_texts_that_are_not_uids(self):
        for text in ("", "a", "A::\"a", 'A::"\ud800"', 'A::"a"\0'):
            with self.assertRaises(CedarError) as caught:
                Store([(text, [])])
            self.assertEqual(caught.exception.reason, "not a uid")
        store = Store({'A::"é"': ['A::"\\0"']})
        self.assertEqual(store.parents('A::"é"'), ['A::"\\0"'])

    def test_entity_with_5000_parents(self):
        names = [f"n{k:05}" for k in range(5000)]
        store = Store({uid("a"): [uid(name) for name in names]})
        self.assertEqual(store.ancestors(uid("a")), [uid(name) for name in names])
        store.remove([uid("a")])
        self.assertEqual(len(store), 0)

    def test_close(self):
        store = Store()
        store.close()
        store.close()
        self.assertEqual(len(store), 0)
        with self.assertRaises(Closed):
            store.ancestors(uid("a"))


class Reads(unittest.TestCase):
    def test_iterate_over_uids(self):
        store = Store(entities(("a", "b"), ("b", "c"), ("x", "")))
        self.assertEqual(sorted(store), [uid("a"), uid("b"), uid("x")])
        self.assertEqual((set(store), len(list(store))), (set(store.uids()), len(store)))
        for name in store:
            store.remove([name])
        self.assertEqual((len(store), list(store), bool(store)), (0, [], False))

    def test_iterate_over_5000_uids(self):
        parents_by_uid = {f'A::"n{k}é"': [] for k in range(5000)}
        self.assertEqual(set(Store(parents_by_uid)), set(parents_by_uid))

    def test_get_entity(self):
        store = Store(entities(("a", "b"), ("b", "c")))
        self.assertEqual(store.entity(uid("a")), Entity(uid("a"), [uid("b")], indirect_ancestors=[uid("c")]))
        self.assertEqual(store.entity(uid("a")).ancestors, {uid("b"), uid("c")})
        self.assertIsNone(store.entity(uid("c")))
        self.assertFalse(store.is_partial())
        store.partial()
        self.assertTrue(store.is_partial() and store.copy().is_partial())
        self.assertIs(store.entity(uid("c")), Unknown.UNKNOWN)
        self.assertEqual((store.entity(uid("b")).parents, uid("c") in store), ({uid("c")}, False))
        self.assertFalse(store.slice([uid("a")]).is_partial())
        self.assertEqual(len({store.entity(uid("a")), store.entity(uid("a"))}), 1)
        with self.assertRaises(CedarError) as caught:
            store.entity("c")
        self.assertEqual(caught.exception.reason, "not a uid")

    def test_parents_and_indirect_ancestors(self):
        store = Store(entities(("a", "b"), ("b", "c"), ("c", "d")))
        self.assertEqual(store.indirect_ancestors(uid("a")), [uid("c"), uid("d")])
        for name, is_child, is_indirect in (("b", True, False), ("c", False, True), ("a", False, False)):
            self.assertEqual(store.is_child_of(uid("a"), uid(name)), is_child)
            self.assertEqual(store.is_indirect_descendant_of(uid("a"), uid(name)), is_indirect)
        for call in (store.is_child_of, store.is_indirect_descendant_of):
            for pair, reason, name in (
                ((uid("z"), uid("a")), "no entity", uid("z")), ((uid("a"), "b"), "not a uid", "b"),
                (("b", uid("a")), "not a uid", "b"),
            ):
                with self.assertRaises(CedarError) as caught:
                    call(*pair)
                self.assertEqual((caught.exception.reason, caught.exception.names), (reason, (name,)))
                self.assertEqual(str(caught.exception), f"{reason} {name}")

    def test_entity_without_attributes_and_tags(self):
        store = Store(entities(("a", "b")))
        for call, expected in (
            (store.attr_keys, []),
            (store.tag_keys, []),
            (store.attrs_len, 0),
            (store.tags_len, 0),
        ):
            self.assertEqual(call(uid("a")), expected)
            with self.assertRaises(CedarError) as caught:
                call(uid("b"))
            self.assertEqual(caught.exception.reason, "no entity")

    def test_compare_an_entity_of_two_stores(self):
        store, other = Store(entities(("a", "b"), ("b", "c"))), Store(entities(("a", "bc"), ("b", "")))
        self.assertTrue(store.entity_equal(uid("a"), other) and store.entity_equal(uid("a"), store))
        self.assertFalse(store.entity_equal(uid("b"), other))
        for second in (other, store):
            with self.assertRaises(CedarError) as caught:
                store.entity_equal(uid("c"), second)
            self.assertEqual(caught.exception.reason, "no entity")
        with self.assertRaises(TypeError):
            store.entity_equal(uid("a"), None)
        other.close()
        with self.assertRaises(Closed):
            store.entity_equal(uid("a"), other)

    def test_texts_of_stores_and_entities(self):
        store = Store(entities(("b", "c"), ("a", "b")))
        text, other = 'A::"a":\n  attrs:\n  ancestors:A::"b", A::"c"', 'A::"b":\n  attrs:\n  ancestors:A::"c"'
        self.assertEqual((store.entity_text(uid("a")), str(store)), (text, f"{text}\n{other}\n"))
        self.assertEqual((f"{store}", str(Store())), (str(store), "<empty Entities>"))
        large = Store({f'{"BA"[k % 2]}::"n{k}é"': [uid(k)] for k in range(300)})
        large._call(cedar_store._store._text)
        expected = large._result_texts()
        self.assertEqual([str(large)], expected)
        self.assertEqual(repr(store), "<Store of 2 entities>")
        self.assertEqual(on_thread(lambda: repr(store)), "<Store of 2 entities>")
        store.close()
        self.assertEqual(repr(store), "<Store, closed>")

    def test_calls_on_a_closed_store(self):
        store = Store(entities(("a", "b")))
        store.close()
        for call in (
            store.uids,
            store.partial,
            store.is_partial,
            lambda: list(store),
            lambda: str(store),
            lambda: store.entity(uid("a")),
            lambda: store.attr_keys(uid("a")),
            lambda: store.attrs_len(uid("a")),
            lambda: store.is_child_of(uid("a"), uid("b")),
            lambda: pickle.dumps(store),
        ):
            with self.assertRaises(Closed):
                call()


class Uids(unittest.TestCase):
    def test_make_uids_and_get_their_parts(self):
        for type, id, text in (
            ("User", "alice", 'User::"alice"'),
            ("A::B", "O'Brien", 'A::B::"O\\\'Brien"'),
            ("A", "", 'A::""'),
            ("A", 'a"b\n\\', 'A::"a\\"b\\n\\\\"'),
            ("A", "\0" * 100, f'A::"{chr(92) + "0"}"'.replace("\\0", "\\0" * 100)),
            ("A", "é🦀", 'A::"é🦀"'),
        ):
            made_uid = EntityUid.make(type, id)
            self.assertEqual((made_uid, made_uid.type, made_uid.id), (text, type, id))
            self.assertEqual((EntityUid(text), EntityUid.escape(id)), (made_uid, text[len(type) + 3 : -1]))
            self.assertTrue(made_uid in Store({made_uid: []}) and text in Store({made_uid: []}))

    def test_id_with_many_escaped_characters(self):
        id = "\x01\u200b" * 500
        self.assertEqual(EntityUid.make("A", id).parts, ("A", id))

    def test_invalid_types_ids_and_texts(self):
        for type in ("", "A B", "if", "A::", "1", "A::\"a\"", "\ud800"):
            with self.assertRaises(CedarError) as caught:
                EntityUid.make(type, "a")
            self.assertEqual((caught.exception.reason, str(caught.exception)), ("not a name", "not a name " + type))
        with self.assertRaises(CedarError) as caught:
            EntityUid.make("A", "\ud800")
        self.assertEqual(caught.exception.reason, "not UTF-8")
        for text in ("", "a", "A::a", 'A::"a" '):
            with self.assertRaises(CedarError) as caught:
                EntityUid(text)
            self.assertEqual(caught.exception.reason, "not a uid")
        for call in (lambda: EntityUid(5), lambda: EntityUid.make("A", 5), lambda: EntityUid.make(None, "a")):
            with self.assertRaises(TypeError):
                call()

    def test_a_uid_is_a_str(self):
        a = EntityUid(uid("a"))
        self.assertEqual((a, {a: 1}[uid("a")], f"{a}"), (uid("a"), 1, uid("a")))
        self.assertIs(type(Store({a: []}).uids()[0]), EntityUid)
        for copied in (copy.copy(a), copy.deepcopy(a), pickle.loads(pickle.dumps(a, 0)), on_thread(lambda: a)):
            self.assertEqual((type(copied), copied.id), (EntityUid, "a"))


class Copies(unittest.TestCase):
    def test_copies_of_stores_are_independent(self):
        for copy_function in (copy.copy, copy.deepcopy, Store.copy):
            store = Store(entities(("a", "b")))
            other = copy_function(store)
            self.assertTrue(other == store)
            other.add(entities(("x", "")))
            del other
            gc.collect()
            self.assertEqual((len(store), store.parents(uid("a"))), (1, [uid("b")]))
            other = copy_function(store)
            store.close()
            self.assertEqual(other.parents(uid("a")), [uid("b")])

    def test_copies_of_policy_sets_are_independent(self):
        for copy_function in (copy.copy, copy.deepcopy, Policies.copy):
            policies = Policies()
            policies.add_static("p")
            other = copy_function(policies)
            other.add_static("q")
            self.assertEqual((policies.policies(), other.policies()), (["p"], ["p", "q"]))
            policies.close()
            self.assertEqual(other.policies(), ["p", "q"])

    def test_deepcopy_of_an_object_that_contains_a_store(self):
        container = {"store": Store(entities(("a", "b")))}
        other = copy.deepcopy(container)
        self.assertTrue(other["store"] == container["store"] and other["store"] is not container["store"])

    def test_init_twice(self):
        store = Store(entities(("a", "b")))
        store.__init__(entities(("x", "")))
        self.assertEqual((len(store), uid("x") in store), (1, True))
        with self.assertRaises(Closed):
            Store.__new__(Store).validate()


def build_store(new_entities):
    Store(new_entities)


def add_child_of_a(store, name):
    store.add({name: [uid("a")]})
    return store


class Errors(unittest.TestCase):
    def test_errors_that_name_uids(self):
        for new_entities, mode, names in (
            (entities(("a", "a")), Mode.COMPUTE, "a"),
            (entities(("a", "b"), ("a", "c")), Mode.COMPUTE, "a"),
            (entities(("a", "b"), ("b", "c")), Mode.ENFORCE, "abc"),
        ):
            with self.assertRaises(CedarError) as caught:
                Store(new_entities, mode)
            uids = caught.exception.uids
            self.assertEqual(uids, tuple(map(uid, names)))
            self.assertEqual((type(uids), type(uids[0]), uids[0].id), (tuple, EntityUid, "a"))
            self.assertEqual(pickle.loads(pickle.dumps(caught.exception)).uids, uids)
        # A uid with spaces, quotes and the text of another uid in its id.
        name = EntityUid.make("N::A", 'x " A::"b" \\')
        with self.assertRaises(CedarError) as caught:
            Store({name: [name]})
        self.assertEqual(caught.exception.uids, (name,))
        with self.assertRaises(CedarError) as caught:
            Store({'Action::"go"': [uid("a")]}).validate()
        self.assertEqual(caught.exception.uids, ('Action::"go"', uid("a")))

    def test_errors_that_name_other_items(self):
        policies = Policies()
        policies.add_static(uid("a"))
        with self.assertRaises(CedarError) as caught:
            policies.add_static(uid("a"))
        self.assertEqual((str(caught.exception), caught.exception.uids), ('occupied A::"a"', ()))
        with self.assertRaises(CedarError) as caught:
            Store().parents("a")
        self.assertEqual(caught.exception.uids, ())
        policies.add_template("t", action=Constraint.is_eq_slot())
        with self.assertRaises(CedarError) as caught:
            policies.link("t", "l", action=uid("a"))
        self.assertEqual((caught.exception.reason, caught.exception.uids), ("not an action", (uid("a"),)))

    def test_reasons_of_statuses(self):
        for number, known in STATUSES.items():
            self.assertEqual(cedar_store.status_text(number), known.text)
            error = CedarError(known.reason, known.text)
            self.assertEqual((type(error), error.reason), (known.exception, known.reason))
            self.assertIsInstance(error, CedarError)
        self.assertEqual(list(STATUSES), [*range(1, len(STATUSES) + 1)])
        self.assertEqual(cedar_store.status_text(len(STATUSES) + 1), "")
        self.assertEqual({known.exception.__name__ for known in STATUSES.values()}, set(_statuses.__all__))
        self.assertLessEqual(set(_statuses.__all__), set(cedar_store.__all__))
        store = Store(entities(("a", "b")))
        with self.assertRaises(CedarError):
            store.add(entities(("b", "a")))
        # Errors without a text of their own do not get the text of the last error.
        for status in (26, 27, 28):
            with self.assertRaises(STATUSES[status].exception) as caught:
                store._raise_error(status)
            self.assertEqual((caught.exception.reason, str(caught.exception)), (STATUSES[status].reason,) * 2)


class Pickles(unittest.TestCase):
    def test_pickle_exceptions(self):
        for error in (CedarError("cycle", 'cycle at A::"a"'), Closed("closed", "cannot use a store: it was closed")):
            for protocol in range(pickle.HIGHEST_PROTOCOL + 1):
                unpickled = pickle.loads(pickle.dumps(error, protocol))
                self.assertEqual((type(unpickled), str(unpickled)), (type(error), str(error)))
                self.assertEqual(unpickled.__dict__, error.__dict__)
        self.assertEqual(copy.copy(CedarError("cycle", "text")).reason, "cycle")

    def test_exception_from_another_process(self):
        with concurrent.futures.ProcessPoolExecutor(1) as pool:
            with self.assertRaises(CedarError) as caught:
                pool.submit(build_store, entities(("a", "a"))).result()
            self.assertEqual(caught.exception.reason, "cycle")

    def test_policy_sets_cannot_be_pickled(self):
        for protocol in range(pickle.HIGHEST_PROTOCOL + 1):
            with self.assertRaisesRegex(TypeError, "cannot be pickled"):
                pickle.dumps(Policies(), protocol)

    def test_pickle_stores(self):
        new_entities = entities(("a", "b"), ("b", "c"), ("x", "bc"), ("é", ""))
        computed, assumed = Store(new_entities), Store(new_entities, Mode.ASSUME)
        cycle = Store(entities(("a", "b"), ("b", "a")), Mode.ASSUME)
        partial = Store(new_entities)
        partial.partial()
        for store in (Store(), computed, computed.slice([uid("a")]), assumed, cycle, partial):
            for protocol in range(pickle.HIGHEST_PROTOCOL + 1):
                unpickled = pickle.loads(pickle.dumps(store, protocol))
                self.assertTrue(unpickled == store and unpickled is not store)
                self.assertEqual(unpickled.is_partial(), store.is_partial())
                for name in store:
                    self.assertEqual(unpickled.entity(name), store.entity(name))

    def test_pickle_a_store_that_no_mode_builds(self):
        store = Store(entities(("a", "b"), ("b", "c")), Mode.ASSUME)
        store.upsert(entities(("x", "y"), ("y", "z")))
        unpickled = pickle.loads(pickle.dumps(store))
        self.assertEqual([unpickled.entity(uid) for uid in unpickled], [store.entity(uid) for uid in unpickled])
        self.assertEqual(len(store), 4)

    def test_pass_a_store_to_another_process(self):
        store = Store(entities(("a", "b"), ("b", "c")))
        with concurrent.futures.ProcessPoolExecutor(1) as pool:
            # A process pool pickles on a thread of its own.
            edited = pool.submit(add_child_of_a, store, uid("x")).result()
        self.assertEqual((set(edited), edited.parents(uid("x"))), ({uid("a"), uid("b"), uid("x")}, [uid("a")]))
        self.assertTrue(edited.is_descendant_of(uid("x"), uid("c")))
        self.assertEqual(len(store), 2)
        with multiprocessing.Pool(1) as pool:
            self.assertEqual(len(pool.apply(add_child_of_a, (store, uid("x")))), 3)


class Arguments(unittest.TestCase):
    def test_invalid_modes(self):
        invalid_modes = (True, False, 0.0, 1.0, -1, 3, 2**32, 2**32 + 1, 2**64, -(2**64), None, "0", Effect.PERMIT)
        for mode in invalid_modes:
            store = Store(entities(("a", "b")))
            for call in (
                lambda: Store(entities(("a", "b")), mode),
                lambda: store.add(entities(("x", "")), mode),
                lambda: store.upsert(entities(("a", "")), mode),
                lambda: store.remove([uid("a")], mode),
            ):
                with self.assertRaises(ValueError, msg=repr(mode)):
                    call()
            self.assertEqual((len(store), store.parents(uid("a"))), (1, [uid("b")]))
        for mode in (0, 1, 2, Mode.COMPUTE, Mode.ENFORCE, Mode.ASSUME):
            self.assertEqual(len(Store(entities(("a", "b")), mode)), 1)

    def test_invalid_effects(self):
        policies = Policies()
        for effect in (True, 0.0, -1, 2, 2**32, None, Mode.COMPUTE):
            with self.assertRaises(ValueError, msg=repr(effect)):
                policies.add_static("p", effect)
            with self.assertRaises(ValueError, msg=repr(effect)):
                policies.add_template("p", effect)
        self.assertEqual(policies.bodies(), [])
        policies.add_static("p", 0)
        policies.add_template("t", 1, principal=Constraint.is_eq_slot(), action=Constraint.is_eq_slot())
        policies.link("t", "l", principal=uid("a"), action='Action::"go"')

    def test_in_accepts_any_object(self):
        store = Store(entities(("a", "b")))
        for other in ("x", "", 'A::"', 'A::"\ud800"', "a" * 5000, 5, None, 1.5, b"a", uid("a").encode(), [], store):
            self.assertFalse(other in store)
        self.assertTrue(uid("a") in store)
        store.close()
        with self.assertRaises(Closed):
            uid("a") in store

    def test_arguments_that_are_not_texts(self):
        store = Store(entities(("a", "b")))
        for call in (
            lambda: store.is_descendant_of(uid("a"), 5),
            lambda: store.is_descendant_of(uid("a").encode(), uid("b")),
            lambda: store.ancestors(None),
            lambda: store.remove([5]),
            lambda: store.remove(uid("a")),
            lambda: store.slice(uid("a")),
            lambda: store.add({uid("x"): uid("y")}),
            lambda: store.add({5: []}),
            lambda: is_uid(5),
            lambda: Policies().add_static(b"p"),
        ):
            with self.assertRaises(TypeError):
                call()
        self.assertEqual(len(store), 1)

    def test_long_uids(self):
        for size in (511, 512, 513, 5000, 100_000):
            long = "n" * size
            store = Store(entities(("a", [long]), (long, "")))
            self.assertTrue(store.is_descendant_of(uid("a"), uid(long)) and uid(long) in store)
            self.assertEqual(store.ancestors(uid("a")), [uid(long)])


def create_store_in_reference_cycle(new_entities):
    """Creates a store that is only referenced by a cycle of references."""
    cycle = [Store(new_entities)]
    cycle.append(cycle)


def on_thread(call):
    """Calls a function on another thread. Returns its result, or raises its exception."""
    with concurrent.futures.ThreadPoolExecutor(1) as pool:
        return pool.submit(call).result()


class Memory(unittest.TestCase):
    MEGABYTE = 1 << 20

    def setUp(self):
        self.large = {uid(n): [uid(n // 8)] for n in range(1, 301)}

    def test_memory_of_100000_stores_is_freed(self):
        for _ in range(1000):
            create_store_in_reference_cycle(entities(("a", "b")))
        gc.collect()
        before = resident_bytes()
        for _ in range(100_000):
            create_store_in_reference_cycle(entities(("a", "b")))
        gc.collect()
        self.assertLess(resident_bytes() - before, 8 * self.MEGABYTE)

    def collect_500_stores(self, collect):
        """Creates five hundred stores in reference cycles, and calls the garbage collector."""
        gc.disable()
        try:
            for _ in range(500):
                create_store_in_reference_cycle(self.large)
            collect()
        finally:
            gc.enable()
        len(Store())

    def test_stores_in_reference_cycles_are_freed(self):
        for collect in (gc.collect, lambda: on_thread(gc.collect)):
            with warnings.catch_warnings():
                warnings.simplefilter("ignore", ResourceWarning)
                self.collect_500_stores(collect)
                before = resident_bytes()
                for _ in range(3):
                    self.collect_500_stores(collect)
            # Five hundred stores take more than a hundred megabytes. The allocator keeps some of what is freed.
            self.assertLess(resident_bytes() - before, 40 * self.MEGABYTE)


class Package(unittest.TestCase):
    def test_search_for_the_library(self):
        package = os.path.dirname(os.path.abspath(cedar_store.__file__))
        library = cedar_store._library._LIBRARY._name
        base_environment = {name: value for name, value in os.environ.items() if name != "CEDAR_LIBRARY"}
        with tempfile.TemporaryDirectory() as folder:
            package_copy = os.path.join(folder, "cedar_store")
            shutil.copytree(package, package_copy, ignore=shutil.ignore_patterns("*.so", "__pycache__"))

            def output(**variables):
                """Returns the output of a program that uses only the package, with these environment variables."""
                command = [sys.executable, "-B", "-c", "import cedar_store; print(cedar_store.is_uid('A::\"a\"'))"]
                environment = {**base_environment, **variables}
                result = subprocess.run(command, cwd=folder, env=environment, capture_output=True, text=True)
                return result.stdout + result.stderr

            self.assertIn("ImportError: cannot find libcedar.so: run callers/run", output())
            self.assertEqual(output(CEDAR_LIBRARY=library), "True\n")
            self.assertIn("OSError", output(CEDAR_LIBRARY=os.path.join(folder, "none.so")))
            shutil.copy(library, os.path.join(package_copy, "libcedar.so"))
            self.assertEqual(output(), "True\n")

    @unittest.skipUnless(shutil.which("gcc"), "gcc is missing")
    def test_libraries_of_another_version(self):
        version_of = "unsigned cedar_version(void) { return %d; }"
        functions = "run uid_check uids_check error_part status_text".split()
        program = "".join(f"int cedar_{name}(void) {{ return 0; }}\n" for name in functions)
        for text, error in (
            (program + version_of % 0x200, "has the version 0.2.0, but cedar_store 0.1.0 needs"),
            (program + version_of % 0x100, "has no function cedar_uid_make"),
            ("int other;", "has no function cedar_run: cedar_store 0.1.0 needs a library of version 0.1.0"),
        ):
            with tempfile.TemporaryDirectory() as folder:
                library, source = os.path.join(folder, "other.so"), os.path.join(folder, "other.c")
                with open(source, "w") as file:
                    file.write(text)
                subprocess.run(["gcc", "-shared", "-fPIC", "-o", library, source], check=True)
                environment = {**os.environ, "CEDAR_LIBRARY": library}
                here = os.path.dirname(os.path.abspath(__file__))
                command = [sys.executable, "-B", "-c", "import cedar_store"]
                result = subprocess.run(command, cwd=here, env=environment, capture_output=True, text=True)
                self.assertIn("ImportError: the library", result.stderr)
                self.assertIn(error, result.stderr)

    def test_proved_mark(self):
        library = cedar_store._library._LIBRARY._name
        with open(library, "rb") as file:
            self.assertEqual(cedar_store.__proved__, b"\0.cedar_unproved\0" not in file.read())
        with tempfile.TemporaryDirectory() as folder:
            for content in (b"", b"\x7fELF", bytes(100)):
                path = os.path.join(folder, "other.so")
                with open(path, "wb") as file:
                    file.write(content)
                self.assertIn(cedar_store._library._is_proved(path), (True, False))

    def test_version_is_the_version_of_the_project(self):
        self.assertEqual(version(), cedar_store.__version__)
        with open(os.path.join(os.path.dirname(os.path.abspath(__file__)), "pyproject.toml")) as project:
            self.assertEqual(re.findall('^version = "(.*)"$', project.read(), re.M), [cedar_store.__version__])

    def test_exported_names_exist(self):
        for name in cedar_store.__all__:
            self.assertTrue(hasattr(cedar_store, name), name)
        self.assertTrue(os.path.exists(os.path.join(os.path.dirname(cedar_store.__file__), "py.typed")))


class Functions(unittest.TestCase):
    def test_status_text(self):
        self.assertEqual((status_text(0), status_text(4), status_text(27)), ("ok", "not a uid", "not a name"))
        self.assertEqual([status_text(number) for number in (1000, -1, 1 << 32, 1 << 64)], [""] * 4)

    def test_is_uid(self):
        self.assertTrue(is_uid(uid("a")))
        self.assertFalse(is_uid("A::a"))

    def test_run(self):
        lines, expected = b'ent\tA::"a"\tA::"b"\nbuild\nanc\tA::"a"\n', b'ok 1\nanc\tA::"b"\n'
        self.assertEqual(run(lines), (expected, 0))
        self.assertEqual(run(lines + b"frob", key=ZEROS), (expected + b"line 4: not a command\n", 2))
        long_input = b'anc\tA::"a"\n' * 1000
        self.assertEqual(run(long_input), (b"no entity\n" * 1000, 0))
        self.assertEqual(run(b"ids\n" * 1000), (b"bodies\npolicies\n" * 1000, 0))


if __name__ == "__main__":
    tests = unittest.defaultTestLoader.loadTestsFromModule(sys.modules["__main__"])
    for name in ("conventions", "deep_copy", "examples", "numbers", "policies", "queries", "threads", "values"):
        tests.addTests(unittest.defaultTestLoader.loadTestsFromName("test_" + name))
    output = io.StringIO()
    result = unittest.TextTestRunner(stream=output, verbosity=0).run(tests)
    failed = len(result.failures) + len(result.errors)
    if failed:
        print(output.getvalue())
    for test, reason in result.skipped:
        print(f"{test.id()}: NOT RUN: {reason}")
    print(f"{result.testsRun - failed - len(result.skipped)} passed, {failed} failed")
    sys.exit(failed != 0)
