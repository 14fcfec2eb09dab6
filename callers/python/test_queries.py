"""Tests of the questions of administrators: who is below a uid and why, which policies name a uid, and what a change
would do. Drawn stores and sets are compared with plain models. `test_cedar_store.py` runs them too.
"""
import random
import re
import threading
import unittest

from cedar_store import (
    Bound,
    Closed,
    Constraint,
    Cycle,
    DuplicateEntity,
    Effect,
    Entity,
    EntityChange,
    EntityUid,
    Mode,
    NotAName,
    NotAUid,
    Policies,
    PoliciesDiff,
    Store,
    StoreDiff,
)
from cedar_store._uids import order_key
from cedar_store.values import PRINCIPAL, RESOURCE, Lit
from test_support import entities, uid

TYPES = ("A", "B", "N::A", "A::B", "AB")


def drawn_uid(rng, count):
    """Returns a uid. Some ids are escaped, and some are not ASCII."""
    id = rng.choice(("x", "it's", 'a"b', "é", "\\")) + str(rng.randrange(count)) if rng.random() < 0.2 else "x0"
    return EntityUid.make(rng.choice(TYPES), id if id != "x0" else f"x{rng.randrange(count)}")


def drawn_parents(rng, count):
    """Returns the parents of some uids, with cycles, edges to themselves and parents without an entity."""
    uids = [drawn_uid(rng, count) for _ in range(count)]
    return {uid: {rng.choice(uids + [drawn_uid(rng, count)]) for _ in range(rng.randrange(4))}
            for uid in uids[: rng.randrange(count + 1)]}


def drawn_hierarchy(rng, count):
    """Returns the parents of some uids without a cycle."""
    uids = list(dict.fromkeys(drawn_uid(rng, count) for _ in range(count)))
    return {uid: {rng.choice(uids[place + 1:]) for _ in range(rng.randrange(4)) if uids[place + 1:]}
            for place, uid in enumerate(uids) if rng.random() < 0.8}


def reached(parents, uid):
    """Returns the number of steps to each uid that a uid reaches over parents."""
    steps, layer, count = {}, {uid}, 0
    while layer:
        count += 1
        layer = {parent for child in layer for parent in parents.get(child, ())} - steps.keys()
        steps.update(dict.fromkeys(layer, count))
    return steps


class Queries(unittest.TestCase):
    def check(self, store, parents, others):
        """Compares all queries of a store with a search over its parents."""
        steps = {uid: reached(parents, uid) for uid in {*parents, *others}}
        for to in steps:
            below = sorted((uid for uid in parents if to in steps[uid]), key=order_key)
            self.assertEqual(store.descendants(to), below)
            for name in TYPES:
                self.assertEqual(store.descendants(to, name), [uid for uid in below if uid.type == name])
            for child in steps:
                path = store.path(child, to)
                self.assertEqual(store.reaches(child, to), to in steps[child])
                if to in steps[child]:
                    self.assertEqual((path[0], path[-1], len(path) - 1), (child, to, steps[child][to]))
                    self.assertTrue(all(after in parents[before] for before, after in zip(path, path[1:])))
                    self.assertTrue(all(type(uid) is EntityUid for uid in path))
                else:
                    self.assertIsNone(path)

    def test_drawn_stores(self):
        rng = random.Random(80)
        for round in range(150):
            parents = drawn_hierarchy(rng, 8) if round % 2 else drawn_parents(rng, 7)
            mode = Mode.COMPUTE if round % 2 else Mode.ASSUME
            store = Store([Entity(uid, parents[uid]) for uid in parents], mode)
            self.check(store, parents, [drawn_uid(rng, 8) for _ in range(3)])
            if round % 2:
                for uid in parents:
                    self.assertEqual(store.ancestors(uid), sorted(reached(parents, uid), key=order_key))

    def test_queries_after_edits(self):
        rng, store, parents = random.Random(81), Store(), {}
        for number in range(60):
            parents[uid(f"{number:02}")] = {uid(f"{number + 1:02}"), uid(f"h{number // 8}")}
        store.add(parents)
        for _ in range(40):
            edited = uid(f"{rng.randrange(60):02}")
            if rng.random() < 0.3:
                store.remove([edited])
                parents.pop(edited, None)
                parents = {child: above - {edited} for child, above in parents.items()}
            else:
                parents[edited] = {uid(f"h{rng.randrange(9)}")}
                store.upsert({edited: parents[edited]})
        for to in ("h3", "59", "60"):
            below = [child for child in sorted(parents) if uid(to) in reached(parents, child)]
            self.assertEqual(store.descendants(uid(to)), below)

    def test_indirect_ancestors_do_not_count(self):
        store = Store([Entity(uid("a"), [uid("b")], indirect_ancestors=[uid("z")])], Mode.ASSUME)
        self.assertEqual((store.descendants(uid("z")), store.path(uid("a"), uid("z"))), ([], None))
        self.assertTrue(store.is_descendant_of(uid("a"), uid("z")) and not store.reaches(uid("a"), uid("z")))

    def test_errors_name_the_invalid_text(self):
        store = Store(entities(("a", "b")))
        for call, error, text in (
            (lambda: store.descendants("a"), NotAUid, "a"),
            (lambda: store.descendants(uid("a"), "A B"), NotAName, "A B"),
            (lambda: store.descendants("a", "A"), NotAUid, "a"),
            (lambda: store.path("a", uid("b")), NotAUid, "a"),
            (lambda: store.path(uid("a"), "b"), NotAUid, "b"),
            (lambda: store.reaches(uid("a"), "\ud800"), NotAUid, None),
            (lambda: Policies().naming("a"), NotAUid, "a"),
            (lambda: Policies().templates_naming(""), NotAUid, ""),
        ):
            with self.assertRaises(error) as caught:
                call()
            if text is not None:
                self.assertEqual(caught.exception.text, text)
        for call in (lambda: store.descendants(5), lambda: store.descendants(uid("a"), 5), lambda: store.path(None, ""),
                     lambda: store.diff(Policies()), lambda: Policies().diff(store), lambda: store.diff(None)):
            with self.assertRaises(TypeError):
                call()
        store.close()
        policies = Policies()
        policies.close()
        for call in (lambda: store.descendants(uid("a")), lambda: store.path(uid("a"), uid("b")),
                     lambda: store.diff(Store()), lambda: Store().diff(store), lambda: store.would_change(),
                     lambda: policies.naming(uid("a")), lambda: policies.diff(Policies())):
            self.assertRaises(Closed, call)


def drawn_policies(rng):
    """Returns the arguments of static policies and templates, and links, by id."""
    items = {}
    for number in range(rng.randrange(8)):
        arguments = {"effect": rng.choice(list(Effect))}
        if rng.random() < 0.5:
            arguments["principal"] = rng.choice((Constraint.is_eq, Constraint.is_in))(drawn_uid(rng, 3))
        if rng.random() < 0.5:
            arguments["action"] = Constraint.is_in(*[f'Action::"{rng.randrange(3)}"' for _ in range(rng.randrange(3))])
        if rng.random() < 0.5:
            arguments["when"] = PRINCIPAL.is_in(drawn_uid(rng, 3)) & RESOURCE.eq(Lit(drawn_uid(rng, 3)))
        if rng.random() < 0.3:
            arguments["annotations"] = {"why": str(rng.randrange(2))}
        if rng.random() < 0.4:
            arguments["resource"] = Constraint.is_in_slot()
        items[f"p{number}"] = arguments
    templates = [id for id, arguments in items.items() if "resource" in arguments]
    links = {f"l{place}": (rng.choice(templates), drawn_uid(rng, 3)) for place in range(rng.randrange(4)) if templates}
    return items, links


def policies_of(items, links):
    """Returns a set of such items."""
    policies = Policies()
    for id, arguments in items.items():
        (policies.add_template if "resource" in arguments else policies.add_static)(id, **arguments)
    for id, (template, resource) in links.items():
        policies.link(template, id, resource=resource)
    return policies


def uids_in(arguments):
    """Returns the uids in the arguments of an item."""
    found = {uid for value in arguments.values() if isinstance(value, Constraint) for uid in value.uids}
    return found | set(re.findall(r'[\w:]+::"(?:[^"\\]|\\.)*"', str(arguments.get("when", ""))))


class Naming(unittest.TestCase):
    def test_drawn_sets(self):
        rng, found = random.Random(82), 0
        for _ in range(150):
            items, links = drawn_policies(rng)
            policies = policies_of(items, links)
            static = [id for id in items if "resource" not in items[id]]
            for asked in [drawn_uid(rng, 3) for _ in range(6)] + ['Action::"1"']:
                expected = [id for id in static if asked in uids_in(items[id])]
                expected += [id for id, (template, bound) in links.items()
                             if asked == bound or asked in uids_in(items[template])]
                self.assertEqual(policies.naming(asked), expected)
                templates = [id for id in items if "resource" in items[id] and asked in uids_in(items[id])]
                self.assertEqual(policies.templates_naming(asked), templates)
                found += len(expected)
        self.assertGreater(found, 100)

    def test_drawn_differences(self):
        rng, changes, relinks = random.Random(83), 0, 0
        for _ in range(150):
            before, after = drawn_policies(rng), drawn_policies(rng)
            for part, other in zip(before, after):
                for id in list(part):
                    if rng.random() < 0.5 and (id in before[0] or part[id][0] in after[0]):
                        other[id] = part[id]
            for id in [id for id, (template, _) in after[1].items() if "resource" not in after[0].get(template, ())]:
                del after[1][id]
            old, new = [{**items, **links} for items, links in (before, after)]
            diff = policies_of(*before).diff(policies_of(*after))
            self.assertEqual([item.id for item in diff.removed], sorted(old.keys() - new.keys()))
            self.assertEqual([item.id for item in diff.added], sorted(new.keys() - old.keys()))
            expected = [id for id in sorted(old.keys() & new.keys()) if content_of(old[id]) != content_of(new[id])]
            self.assertEqual([change.id for change in diff.changed], expected)
            relinked = [id for id in sorted(old.keys() & new.keys() - {*expected})
                        if id in before[1] and before[1][id][0] in expected]
            self.assertEqual([change.id for change in diff.relinked], relinked)
            relinks += len(relinked)
            self.assertEqual(bool(diff), diff != PoliciesDiff())
            changes += len(expected)
            for change in diff.changed:
                self.assertNotEqual(change.before, change.after)
        self.assertGreater(changes, 50)
        self.assertGreater(relinks, 5)

    def test_texts_of_differences(self):
        before, after = Policies(), Policies()
        for policies in (before, after):
            policies.add_template("t", principal=Constraint.is_eq_slot())
        self.assertEqual((str(before.diff(after)), repr(before.diff(after))), ("", "PoliciesDiff()"))
        before.link("t", "l", principal=uid("a"))
        after.link("t", "l", principal=uid("b"))
        before.add_static("s", when=PRINCIPAL.eq(Lit(1)))
        after.add_static("s", when=PRINCIPAL.eq(Lit(True)))
        before.add_static("k")
        after.add_template("k", principal=Constraint.is_in_slot())
        lines = str(before.diff(after)).splitlines()
        self.assertEqual(lines[:4], ["- static k", "+ template k", "    permit(", "-     principal,"])
        self.assertIn('-   Template Instance of t, slots: [?principal -> A::"a"]', lines)
        added = '+   Template Instance of t, slots: [?principal -> A::"b"]'
        self.assertEqual(lines[lines.index("  link l") + 2], added)
        changed = before.diff(after).changed
        self.assertEqual([(change.before.kind, change.after.kind) for change in changed],
                         [(Bound.STATIC, Bound.TEMPLATE), (Bound.LINK, Bound.LINK), (Bound.STATIC, Bound.STATIC)])
        self.assertEqual(before.diff(before), PoliciesDiff())
        self.assertFalse(before.diff(before.copy()))
        relinked = before.copy()
        relinked.unlink("l")
        relinked.remove_template("t")
        relinked.add_template("t", Effect.FORBID, principal=Constraint.is_eq_slot())
        relinked.link("t", "l", principal=uid("a"))
        diff = before.diff(relinked)
        self.assertEqual([[change.id for change in part] for part in (diff.changed, diff.relinked)], [["t"], ["l"]])
        self.assertEqual(str(diff).splitlines()[:3],
                         ["  link l: its template is changed", "  template t", "-   permit("])
        removed = before.diff(Policies())
        self.assertEqual([item.title for item in removed.removed], ["static k", "link l", "static s", "template t"])
        self.assertTrue(all(line.startswith("- ") for line in str(removed).splitlines()))
        self.assertTrue(all(line.startswith("+ ") for line in str(Policies().diff(before)).splitlines()))


def content_of(item):
    """Returns an item in a form that shows each difference."""
    return item if isinstance(item, tuple) else {name: str(value) for name, value in item.items()}


def model_diff(before, after):
    """Returns the difference of two mappings from uids to entities, whose ancestors are computed."""
    parents = [{uid: entity.parents for uid, entity in side.items()} for side in (before, after)]
    both = sorted(before.keys() & after.keys(), key=order_key)
    above = [{uid: set(reached(side, uid)) for uid in both} for side in parents]
    lost, gained = [
        {uid: tuple(sorted(one[uid] - other[uid], key=order_key)) for uid in both if one[uid] - other[uid]}
        for one, other in (above, above[::-1])
    ]
    return StoreDiff(
        removed=tuple(before[uid] for uid in sorted(before.keys() - after.keys(), key=order_key)),
        added=tuple(after[uid] for uid in sorted(after.keys() - before.keys(), key=order_key)),
        changed=tuple(EntityChange(before[uid], after[uid]) for uid in both if before[uid] != after[uid]),
        lost_ancestors=lost,
        gained_ancestors=gained,
    )


def drawn_entities(rng, count):
    """Returns entities with attributes and tags, without a cycle."""
    hierarchy = drawn_hierarchy(rng, count)
    return {uid: Entity(uid, parents, attrs={"n": rng.randrange(2)} if rng.random() < 0.5 else {},
                        tags={"t": rng.choice((1, True, "x"))} if rng.random() < 0.3 else {})
            for uid, parents in hierarchy.items()}


class Differences(unittest.TestCase):
    def test_drawn_stores(self):
        rng, count = random.Random(84), 0
        for _ in range(200):
            before = drawn_entities(rng, 8)
            after = {uid: entity for uid, entity in before.items() if rng.random() < 0.7}
            try:
                store, other = Store(before.values()), Store({**drawn_entities(rng, 8), **after}.values())
            except Cycle:
                continue
            after = {uid: other[uid] for uid in other}
            after = {uid: Entity(uid, item.parents, attrs=item.attrs, tags=item.tags) for uid, item in after.items()}
            diff = store.diff(other)
            self.assertEqual(diff, model_diff(before, after))
            self.assertEqual(bool(diff), store != other or any(
                before[uid].parents != after[uid].parents for uid in before))
            self.assertEqual(store.diff(store.copy()), StoreDiff())
            count += bool(diff)
        self.assertGreater(count, 100)

    def test_drawn_edits(self):
        rng, failed = random.Random(85), 0
        for _ in range(200):
            before = drawn_entities(rng, 8)
            store, items = Store(before.values()), list(drawn_entities(rng, 8).values())
            unchanged = store.copy()
            add, upsert, remove = items[:2], items[2:4], [drawn_uid(rng, 8) for _ in range(2)]
            edited = store.copy()
            try:
                edited.add(add)
                edited.upsert(upsert)
                edited.remove(remove)
            except (Cycle, DuplicateEntity) as error:
                failed += 1
                with self.assertRaises(type(error)):
                    store.would_change(add=add, upsert=upsert, remove=remove)
            else:
                self.assertEqual(store.would_change(add=add, upsert=upsert, remove=remove), store.diff(edited))
            self.assertEqual(store.diff(unchanged), StoreDiff())
        self.assertTrue(0 < failed < 150, failed)

    def test_other_modes_and_partial_stores(self):
        indirect = Entity(uid("a"), [uid("b")], indirect_ancestors=[uid("z")])
        store, other = Store([indirect], Mode.ASSUME), Store([Entity(uid("a"), [uid("b")])], Mode.ASSUME)
        diff = store.diff(other)
        self.assertEqual((diff.lost_ancestors, diff.changed), ({uid("a"): (uid("z"),)}, ()))
        self.assertEqual(str(diff), f'  {uid("a")}\n-   ancestor {uid("z")}')
        # a parent that was an indirect ancestor: the ancestors stay
        other = Store([Entity(uid("a"), [uid("b"), uid("z")])], Mode.ASSUME)
        diff = store.diff(other)
        self.assertEqual((diff.lost_ancestors, diff.gained_ancestors, len(diff.changed)), ({}, {}, 1))
        self.assertEqual(str(diff), f'  {uid("a")}\n+   parent {uid("z")}')
        other.partial()
        self.assertEqual(store.diff(other).partial, (False, True))
        self.assertEqual(str(Store().diff(Store())), "")
        partial = Store()
        partial.partial()
        self.assertEqual((str(partial.diff(Store())), bool(partial.diff(Store()))), ("- partial\n+ not partial", True))
        # a mode that checks the edited store
        chain = Store(entities(("a", "b"), ("b", "")))
        self.assertEqual(len(chain.would_change(add=entities(("c", "")), mode=Mode.ENFORCE).added), 1)
        self.assertEqual(chain.would_change(mode=Mode.ENFORCE), StoreDiff())
        with self.assertRaises(ValueError):
            chain.would_change(add=entities(("c", "")), mode=7)

    def test_texts_of_differences(self):
        alice = Entity(uid("a"), [uid("b")], attrs={"age": 41, "home": "Rome"}, tags={"t": 1})
        store = Store([alice, (uid("b"), [uid("c")]), (uid("x"), [])])
        diff = store.would_change(
            upsert=[Entity(uid("a"), [uid("b")], attrs={"age": 42, "home": "Rome"}), (uid("b"), [uid("d")])],
            add=[Entity(uid("n"), [uid("b")], attrs={"age": 1})], remove=[uid("x")],
        )
        self.assertEqual(str(diff).splitlines(), [
            '  A::"a"', "-   attribute age = 41", "-   tag t = 1", '-   ancestor A::"c"', "+   attribute age = 42",
            '+   ancestor A::"d"', '  A::"b"', '-   parent A::"c"', '+   parent A::"d"',
            '+ A::"n"', '+   parent A::"b"', "+   attribute age = 1", '- A::"x"',
        ])
        self.assertEqual(repr(store.would_change(remove=[uid("b")])), (
            f"StoreDiff(removed=[{store[uid('b')]!r}], changed=[EntityChange(before={store_entity(store, 'a')!r}, "
            f"after={store_entity(store, 'a', [])!r})], "
            f"lost_ancestors={{{uid('a')!r}: [{uid('b')!r}, {uid('c')!r}]}})"
        ))
        self.assertEqual(repr(StoreDiff()), "StoreDiff()")

    def test_two_threads_compare_in_both_directions(self):
        stores = [Store(entities(("a", "b"))), Store(entities(("a", "c"), ("b", "")))]
        sets = [Policies(), Policies()]
        sets[0].add_static("p")
        expected = [[one.diff(other) for one, other in (pair, pair[::-1])] for pair in (stores, sets)]
        results = []

        def compare(place):
            for _ in range(200):
                results.append(all(pair[place].diff(pair[1 - place]) == expected[kind][place]
                                   for kind, pair in enumerate((stores, sets))))

        threads = [threading.Thread(target=compare, args=(place,)) for place in (0, 1, 0, 1)]
        for thread in threads:
            thread.start()
        for thread in threads:
            thread.join()
        self.assertEqual(results, [True] * 800)


def store_entity(store, name, parents=None):
    """Returns an entity of a store without its indirect ancestors, or with other parents."""
    entity = store[uid(name)]
    return Entity(entity.uid, entity.parents if parents is None else parents, attrs=entity.attrs, tags=entity.tags)


if __name__ == "__main__":
    unittest.main()
