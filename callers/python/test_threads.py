"""Tests of stores and sets that several threads use, and of asyncio, garbage collection, the end of the interpreter,
forks and signals. `test_cedar_store.py` runs them too.
"""
import asyncio
import concurrent.futures
import gc
import os
import signal
import subprocess
import sys
import threading
import time
import unittest
import warnings

import cedar_store
from cedar_store import CedarError, Closed, Constraint, Entity, Mode, Policies, Store
from cedar_store._groups import _GROUPS, Group, run_on_both

THREADS = 8


def uid(name):
    return f'A::"{name}"'


def in_threads(call, count=THREADS):
    """Calls a function on several threads at once, with the number of the thread. Returns the results."""
    start = threading.Barrier(count)

    def run(number):
        start.wait()
        return call(number)

    with concurrent.futures.ThreadPoolExecutor(count) as pool:
        return [future.result() for future in [pool.submit(run, number) for number in range(count)]]


def output_of(program, *options):
    """Returns the exit status and the output of a Python program that uses the package."""
    environment = {**os.environ, "PYTHONPATH": os.path.dirname(os.path.dirname(cedar_store.__file__))}
    environment["CEDAR_LIBRARY"] = cedar_store._library._LIBRARY._name
    result = subprocess.run(
        [sys.executable, "-B", "-X", "dev", "-W", "error", *options, "-c", program],
        env=environment, capture_output=True, text=True, timeout=300,
    )
    return result.returncode, result.stdout + result.stderr


class Threads(unittest.TestCase):
    def test_eight_threads_use_one_store(self):
        store = Store({uid(n): [uid(n // 2)] for n in range(1, 200)})

        def use(number):
            own = f"own{number}"
            for round in range(60):
                store.upsert([Entity(uid(own), [uid(100 + number)], attrs={"round": round})])
                self.assertEqual(store.get(uid(own), "round"), round)
                self.assertTrue(store.is_descendant_of(uid(own), uid(1)) and uid(own) in store)
                self.assertEqual(store.parents(uid(own)), [uid(100 + number)])
                self.assertEqual(store.ancestors(uid(64)), [uid(n) for n in sorted([0, 1, 2, 4, 8, 16, 32], key=str)])
                with self.assertRaises(CedarError) as caught:
                    store.add({uid(own): [uid(number)]})
                self.assertEqual(caught.exception.uids, (uid(own),))
                self.assertEqual(store[uid(own)].attrs, {"round": round})
            return True

        self.assertEqual(in_threads(use), [True] * THREADS)
        self.assertEqual(len(store), 199 + THREADS)
        store.validate()

    def test_eight_threads_use_copies_and_slices_of_one_store(self):
        store = Store({uid(n): [uid(n // 2)] for n in range(1, 300)})

        def use(number):
            results = set()
            for round in range(40):
                copy, part = store.copy(), store.slice([uid(255)])
                copy.upsert({uid(1): [uid("top")]})
                results.add((copy.is_descendant_of(uid(255), uid("top")), len(part), part == copy))
                results.add(store.is_descendant_of(uid(255), uid("top")))
                copy.remove([uid(128 + number)])
                del copy, part
            return results

        self.assertEqual(in_threads(use), [{(True, 8, False), False}] * THREADS)

    def test_eight_threads_use_one_policy_set(self):
        policies = Policies()
        policies.add_template("t", principal=Constraint.is_eq_slot())

        def use(number):
            for round in range(50):
                id = f"{number} {round}"
                policies.link("t", id, principal=uid(number))
                self.assertEqual(policies.env(id).principal, uid(number))
                self.assertEqual(policies.principal_constraint(id), Constraint.is_eq(uid(number)))
                self.assertTrue(str(policies.copy()) and id in policies)
                if round % 2:
                    policies.unlink(id)
            return True

        self.assertEqual(in_threads(use), [True] * THREADS)
        self.assertEqual(len(policies), 25 * THREADS)

    def test_threads_merge_and_compare_two_sets_in_both_orders(self):
        one, other = Policies(), Policies()
        one.add_static("a")
        other.add_static("b")

        def use(number):
            first, second = (one, other) if number % 2 else (other, one)
            for _ in range(100):
                first.merge(second)
                self.assertIn(first == second, (True, False))
            return True

        self.assertEqual(in_threads(use), [True] * THREADS)
        self.assertEqual((sorted(one), sorted(other)), (["a", "b"], ["a", "b"]))

    def test_a_long_build_lets_calls_on_other_stores_run(self):
        small, ended = Store({uid("a"): []}), []
        large = {uid(n): [uid(n // 8)] for n in range(1, 150_000)}
        thread = threading.Thread(target=lambda: ended.append(Store(large)))
        thread.start()
        calls = 0
        while not ended:
            self.assertIn(uid("a"), small)
            calls += 1
        thread.join()
        self.assertGreater(calls, 100)

    def test_close_while_other_threads_query(self):
        store = Store({uid("a"): [uid("b")]})

        def use(number):
            if not number:
                time.sleep(0.01)
                store.close()
            try:
                while True:
                    store.is_descendant_of(uid("a"), uid("b"))
                    store.ancestors(uid("a"))
            except Closed as error:
                return str(error)

        self.assertEqual(set(in_threads(use)), {"cannot use a store: it was closed"})

    def test_asyncio(self):
        store = Store({uid(n): [uid(n // 2)] for n in range(1, 100)})

        async def main():
            edits = [asyncio.to_thread(store.upsert, {uid(f"x{n}"): [uid(n)]}) for n in range(1, 51)]
            await asyncio.gather(*edits)
            loop = asyncio.get_running_loop()
            queries = [loop.run_in_executor(None, store.is_descendant_of, uid(f"x{n}"), uid(0)) for n in range(1, 51)]
            return await asyncio.gather(*queries)

        self.assertEqual(asyncio.run(main()), [True] * 50)


class GarbageCollection(unittest.TestCase):
    def test_any_thread_drops_any_object_in_any_order(self):
        store = Store({uid(n): [uid(n // 8)] for n in range(1, 301)})
        with warnings.catch_warnings():
            warnings.simplefilter("error")
            for order in (1, -1):
                objects = [store.copy(), store.slice([uid(9)]), store.deep_copy(), Policies(), Store()]
                cycle = [*objects[::order]]
                cycle.append(cycle)
                del objects, cycle
                in_threads(lambda _: gc.collect(), 2)
        self.assertEqual(len(store), 300)

    def test_a_handle_that_is_dropped_during_a_call_is_freed_after_it(self):
        store = Store({uid("a"): []})
        copies, group, held, freed = [store.copy()], store._group, threading.Event(), threading.Event()

        def hold():
            with group.lock:
                held.set()
                freed.wait()

        thread = threading.Thread(target=hold)
        thread.start()
        held.wait()
        copies.clear()
        self.assertEqual(len(group._dropped), 1)
        freed.set()
        thread.join()
        self.assertEqual((store.uids(), group._dropped), ([uid("a")], []))

    def test_the_end_of_a_group_frees_its_dropped_handles(self):
        freed, group = [], Group()
        group._dropped.append(("pointer", None, freed.append))
        del group
        gc.collect()
        self.assertEqual(freed, ["pointer"])

    def test_groups_end_with_their_objects(self):
        gc.collect()
        before = len(_GROUPS)
        stores = [Store() for _ in range(10)]
        copies = [store.copy() for store in stores]
        self.assertEqual(len(_GROUPS), before + 10)
        del stores, copies
        gc.collect()
        self.assertEqual(len(_GROUPS), before)

    def test_a_finalizer_that_calls_the_store_in_the_middle_of_a_call(self):
        store = Store({uid("a"): [uid("b")]})

        def use():
            self.assertTrue(store.is_descendant_of(uid("a"), uid("b")))
            for call in (store.uids, lambda: store.ancestors(uid("a")), lambda: store.add({}), store.close, store.copy):
                with self.assertRaisesRegex(RuntimeError, "in the middle of another call"):
                    call()

        store._group.run(use)
        self.assertEqual(store.ancestors(uid("a")), [uid("b")])

    def test_the_end_of_the_interpreter(self):
        program = """
import threading
from cedar_store import Policies, Store
uid = lambda n: f'A::"{n}"'
store, policies = Store({uid("a"): [uid("b")]}), Policies()
copy, deep, part = store.copy(), store.deep_copy(), store.slice([uid("a")])
cycle = [store]
cycle.append(cycle)
class Keeper:
    kept = [store.copy(), Policies()]
def forever():
    while True:
        store.ancestors(uid("a"))
threading.Thread(target=forever, daemon=True).start()
print(len(store))
"""
        for _ in range(3):
            self.assertEqual(output_of(program), (0, "1\n"))


@unittest.skipUnless(hasattr(os, "fork"), "no fork")
class Forks(unittest.TestCase):
    def in_child(self, call):
        """Returns whether a call in a child process returns True."""
        with warnings.catch_warnings():
            warnings.simplefilter("ignore", DeprecationWarning)
            child = os.fork()
        if not child:
            try:
                os._exit(0 if call() else 1)
            finally:
                os._exit(2)
        return os.waitpid(child, 0)[1] == 0

    def test_a_fork_between_calls(self):
        store, policies = Store({uid("a"): [uid("b")]}), Policies()
        copy = store.copy()

        def use():
            store.add({uid("x"): [uid("a")]})
            policies.add_static("p")
            copies = [copy.copy()]
            copies.clear()
            return store.is_descendant_of(uid("x"), uid("b")) and len(policies) == 1 and len(copy) == 1

        self.assertTrue(self.in_child(use))
        self.assertEqual((len(store), len(policies)), (1, 0))
        self.assertTrue(use())

    def test_a_fork_waits_for_the_calls_of_other_threads(self):
        store = Store({uid(n): [uid(n // 8)] for n in range(1, 2000)})
        ends = threading.Event()

        def edit(number):
            while not ends.is_set():
                store.upsert({uid(f"x{number}"): [uid(1500)]})
                store.remove([uid(f"x{number}")])

        with concurrent.futures.ThreadPoolExecutor(3) as pool:
            futures = [pool.submit(edit, number) for number in range(3)]
            try:
                for _ in range(10):
                    self.assertTrue(self.in_child(lambda: store.validate() is None and 1999 <= len(store) <= 2002))
            finally:
                ends.set()
            for future in futures:
                future.result()

    def test_a_group_that_another_thread_used_at_the_fork(self):
        store, held, ends = Store({uid("a"): []}), threading.Event(), threading.Event()

        def hold():
            with store._group.lock:
                held.set()
                ends.wait()

        thread = threading.Thread(target=hold)
        thread.start()
        held.wait()
        _GROUPS.discard(store._group)

        def use():
            _GROUPS.add(store._group)
            cedar_store._groups._after_fork_in_child()
            try:
                store.uids()
            except RuntimeError as error:
                return "when the process forked" in str(error) and len(Store()) == 0
            return False

        self.assertTrue(self.in_child(use))
        ends.set()
        thread.join()
        self.assertEqual(len(store), 1)


class Signals(unittest.TestCase):
    def test_keyboard_interrupt_in_a_long_build(self):
        program = """
import os, signal, threading
from cedar_store import Store
uid = lambda n: f'A::"{n}"'
entities = {uid(n): [uid(n // 8)] for n in range(1, 200_000)}
store = Store({uid("a"): []})
for call in (lambda: Store(entities), lambda: store.add(entities)):
    timer = threading.Timer(0.15, os.kill, (os.getpid(), signal.SIGINT))
    timer.start()
    try:
        call()
        while True:
            pass
    except KeyboardInterrupt:
        print("interrupted", len(store) in (1, 200_000))
    timer.join()
store.upsert({uid("x"): [uid("a")]})
store.validate()
print(store.is_descendant_of(uid("x"), uid("a")))
"""
        self.assertEqual(output_of(program), (0, "interrupted True\ninterrupted True\nTrue\n"))

    def test_interrupts_leave_no_lock(self):
        store, armed, interrupted = Store({uid("a"): [uid("b")]}), [], 0

        def interrupt(*_):
            if armed:
                armed.clear()
                raise InterruptedError

        previous, hook = signal.signal(signal.SIGALRM, interrupt), sys.unraisablehook
        sys.unraisablehook = lambda _: None  # an exception in a finalizer is only printed
        deadline = time.monotonic() + 20
        signal.setitimer(signal.ITIMER_REAL, 0.0005, 0.0005)
        try:
            while interrupted < 100 and time.monotonic() < deadline:
                try:
                    armed.append(True)
                    store.upsert({uid("x"): [uid("a")]})
                    store.ancestors(uid("x"))
                    store.is_descendant_of(uid("x"), uid("b"))
                    store.copy().close()
                    armed.clear()
                except InterruptedError:
                    interrupted += 1
        finally:
            signal.setitimer(signal.ITIMER_REAL, 0)
            signal.signal(signal.SIGALRM, previous)
            sys.unraisablehook = hook
        self.assertGreaterEqual(interrupted, 20)
        self.assertFalse(store._group.is_busy)
        self.assertEqual(in_threads(lambda _: store.ancestors(uid("a")), 2), [[uid("b")]] * 2)

    def test_a_signal_handler_that_calls_the_store_gets_a_result_or_an_exception(self):
        store, results = Store({uid("a"): [uid("b")], uid("c"): []}), []

        def handle(*_):
            try:
                results.append(store.ancestors(uid("c")))
            except RuntimeError:
                results.append(None)

        previous = signal.signal(signal.SIGALRM, handle)
        signal.setitimer(signal.ITIMER_REAL, 0.0005, 0.0005)
        deadline = time.monotonic() + 1
        try:
            while time.monotonic() < deadline:
                self.assertEqual(store.ancestors(uid("a")), [uid("b")])
                self.assertFalse(store.is_descendant_of(uid("c"), uid("b")))
        finally:
            signal.setitimer(signal.ITIMER_REAL, 0)
            signal.signal(signal.SIGALRM, previous)
        self.assertTrue(results and all(result in ([], None) for result in results))


class Misuse(unittest.TestCase):
    def test_an_object_without_init_is_closed(self):
        for cls in (Store, Policies):
            empty = cls.__new__(cls)
            self.assertIn("closed", repr(empty))
            with self.assertRaises(Closed):
                empty.copy()

    def test_both_locks_of_one_group(self):
        group = Group()
        self.assertTrue(run_on_both(group, group, lambda: group.is_busy))
        self.assertTrue(run_on_both(group, Group(), lambda: group.is_busy))
        self.assertFalse(group.is_busy)

    def test_an_interrupt_that_left_the_group_busy(self):
        store = Store({uid("a"): []})
        store._group.is_busy = True
        self.assertEqual(store.uids(), [uid("a")])
        self.assertFalse(store._group.is_busy)

    def test_init_again_replaces_the_content(self):
        store = Store({uid("a"): []})
        copy = store.copy()
        store.__init__({uid("b"): [uid("c")]}, Mode.COMPUTE)
        self.assertEqual((store.uids(), copy.uids()), ([uid("b")], [uid("a")]))


if __name__ == "__main__":
    unittest.main()
