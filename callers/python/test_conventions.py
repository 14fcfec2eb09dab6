"""Tests of what users of Python expect: no traps, exceptions that name the items, enums, dataclasses, and any argument.
`test_cedar_store.py` runs them too.
"""
import dataclasses
import inspect
import os
import pickle
import random
import unittest

import cedar_store
from cedar_store import Bound, CedarError, Constraint, ConstraintKind, Effect, Entity, EntityUid, Mode, Policies, Store
from cedar_store.values import CONTEXT, PRINCIPAL, And, Call, Eq, Expr, Extension, In, Lit, SetOf, Slot, UnknownExpr

ALICE, STAFF = EntityUid('User::"alice"'), EntityUid('Group::"staff"')


class Traps(unittest.TestCase):
    def test_a_slot_is_a_slot_or_a_constraint(self):
        policies = Policies()
        for other in (True, False, 1, ALICE, "?principal", str(ALICE), None, object()):
            for add in (policies.add_template, policies.add_static):
                with self.assertRaisesRegex(TypeError, "must be a Constraint or a Slot.*Constraint.is_eq_slot"):
                    add("p", principal=other)
        with self.assertRaisesRegex(ValueError, "constraint on the principal cannot have the slot .resource"):
            policies.add_template("p", principal=Slot("?resource"))
        self.assertEqual(policies.bodies(), [])
        policies.add_template("t", principal=Slot("?principal"), action=Slot("?action"), resource=Slot("?resource"))
        policies.add_template("u", principal=Constraint.is_eq_slot())
        self.assertEqual(policies.slots("t"), {"principal", "action", "resource"})
        self.assertEqual(policies.slots("u"), {"principal"})
        self.assertEqual(policies.principal_constraint("t"), Constraint.is_eq_slot())

    def test_a_plain_text_in_an_expression_is_an_error(self):
        text = str(ALICE)
        for build in (
            lambda: PRINCIPAL.eq(text), lambda: PRINCIPAL.is_in(text), lambda: Eq(text, PRINCIPAL),
            lambda: In(text, text), lambda: SetOf(text), lambda: And(PRINCIPAL, text), lambda: PRINCIPAL & text,
            lambda: text & PRINCIPAL,
            lambda: Policies().add_static("p", when=text), lambda: CONTEXT.eq("x"),
        ):
            with self.assertRaisesRegex(TypeError, r"write EntityUid\(.*\) for the entity, or Lit\(.*\) for"):
                build()
        self.assertNotEqual(PRINCIPAL.eq(ALICE), PRINCIPAL.eq(Lit(text)))
        self.assertEqual(str(Call("ip", "::1")), 'ip("::1")')
        for other in (None, 1.5, b"a", object()):
            with self.assertRaisesRegex(TypeError, "is not a literal"):
                PRINCIPAL.eq(other)

    def test_the_repr_of_a_uid(self):
        self.assertEqual((str(ALICE), f"{ALICE}"), ('User::"alice"', 'User::"alice"'))
        self.assertEqual(repr(ALICE), "EntityUid('User::\"alice\"')")
        self.assertEqual(eval(repr(ALICE)), ALICE)
        self.assertEqual(repr(Store({ALICE: [STAFF]}).ancestors(ALICE)), f"[EntityUid({str(STAFF)!r})]")

    def test_a_store_is_a_mapping_of_its_entities(self):
        entity = Entity(ALICE, [STAFF], attrs={"age": 41}, tags={"t": [1]})
        store = Store([entity, (STAFF, [])])
        self.assertEqual(dict(store), {ALICE: entity, STAFF: Entity(STAFF)})
        self.assertEqual((set(store.keys()), len(store)), ({ALICE, STAFF}, 2))
        self.assertEqual({uid: store[uid] for uid in store}, dict(store))
        with self.assertRaises(KeyError) as caught:
            store['User::"zoe"']
        self.assertEqual((caught.exception.uid, str(caught.exception)), ('User::"zoe"', 'no entity User::"zoe"'))
        with self.assertRaises(ValueError) as caught:
            store["zoe"]
        self.assertEqual(caught.exception.text, "zoe")
        with self.assertRaises(TypeError):
            store[0]

    def test_a_subclass_of_entity(self):
        class User(Entity):
            def __init__(self, name, *groups):
                super().__init__(EntityUid.make("User", name), groups, attrs={"name": name})

            @property
            def name(self):
                return self.attrs["name"]

        user = User("alice", STAFF)
        for entities in ([user], (user,), {user}, [user, (STAFF, [])], iter([user])):
            store = Store(entities)
            self.assertEqual((store.get(ALICE, "name"), store[ALICE]), ("alice", user))
        self.assertEqual((user.name, repr(user)), ("alice", "User('User::\"alice\"', ['Group::\"staff\"'], "
                                                            "attrs={'name': 'alice'})"))

    def test_entities_are_immutable(self):
        entity = Entity(ALICE)
        for name in ("uid", "attrs", "other"):
            with self.assertRaises(dataclasses.FrozenInstanceError):
                setattr(entity, name, 1)
        with self.assertRaises(dataclasses.FrozenInstanceError):
            del entity.uid
        self.assertEqual(pickle.loads(pickle.dumps(Entity(ALICE, [STAFF], tags={"a": [1, True]}))).parents, {STAFF})


class Conventions(unittest.TestCase):
    def test_policies_are_a_collection_of_their_policies(self):
        policies = Policies()
        self.assertEqual((len(policies), list(policies), bool(policies)), (0, [], True))
        policies.add_static("s", Effect.FORBID)
        policies.add_template("t", principal=Constraint.is_in_slot())
        policies.link("t", "l", principal=ALICE)
        self.assertEqual((len(policies), list(policies), policies.templates()), (2, ["s", "l"], ["t"]))
        self.assertEqual([id in policies for id in ("s", "l", "t", "x")], [True, True, False, False])
        self.assertEqual([other in policies for other in (5, None, "\ud800", ALICE)], [False] * 4)
        self.assertEqual(repr(policies), "<Policies: 2 policies, 1 templates>")
        policies.close()
        self.assertEqual(repr(policies), "<Policies, closed>")

    def test_kinds_are_enum_members(self):
        policies = Policies()
        policies.add_static("p", action=Constraint.is_in('Action::"a"'), resource=Constraint.is_entity_type("A"))
        self.assertIs(policies.action_constraint("p").kind, ConstraintKind.IN)
        self.assertIs(policies.resource_constraint("p").kind, ConstraintKind.IS)
        self.assertIs(policies.principal_constraint("p").kind, ConstraintKind.ANY)
        self.assertIs(policies.get("p"), Bound.STATIC)
        self.assertIs(policies.effect("p"), Effect.PERMIT)

    def test_each_exception_names_the_items(self):
        store, policies = Store({ALICE: [STAFF]}), Policies()
        policies.add_template("t", principal=Constraint.is_eq_slot())
        policies.add_static("s")
        policies.link("t", "l", principal=ALICE)
        no_uid, add = ("a", "a"), policies.add_static
        cases = (
            (lambda: store.ancestors('A::"z"'), "UnknownEntity", dict(uid='A::"z"')),
            (lambda: store.ancestors("z"), "NotAUid", dict(text="z")),
            (lambda: store.add([no_uid[:1] + ([],)]), "NotAUid", dict(text="a", index=0)),
            (lambda: store.add({ALICE: []}), "DuplicateEntity", dict(uid=ALICE)),
            (lambda: store.upsert({STAFF: [ALICE]}), "Cycle", {}),
            (lambda: Store([('A::"a"', ['A::"b"']), ('A::"b"', ['A::"c"'])], Mode.ENFORCE), "MissingAncestor",
             dict(uid='A::"a"', ancestor='A::"b"', missing='A::"c"')),
            (lambda: store.has_number(7), "BadArgument", dict(argument="number 7")),
            (lambda: store.get(ALICE, "\ud800"), "NotUtf8", dict(text="\ud800")),
            (lambda: Store([Entity(ALICE, attrs={"k": Extension("no name", "")})]), "NotAName", dict(text="no name")),
            (lambda: Store([Entity(ALICE, attrs={"k": "\ud800"})]), "NotUtf8", dict(text="\ud800")),
            (lambda: add("s"), "IdInUse", dict(id="s")),
            (lambda: add("\ud800"), "NotUtf8", dict(text="\ud800")),
            (lambda: add("n", principal=Constraint.is_in("x y")), "NotAUid", dict(text="x y")),
            (lambda: add("n", action=Constraint.is_in(ALICE, "b")), "NotAUid", dict(text="b")),
            (lambda: add("n", resource=Constraint.is_entity_type("A B")), "NotAName", dict(text="A B")),
            (lambda: add("n", annotations={"a b": ""}), "NotAName", dict(text="a b")),
            (lambda: add("n", when=PRINCIPAL.is_type("1")), "NotAName", dict(text="1")),
            (lambda: add("n", when=PRINCIPAL.eq(Lit("\ud800"))), "NotUtf8", dict(text="\ud800")),
            (lambda: add("n", principal=Constraint.is_in_slot()), "NotStatic", dict(id="n")),
            (lambda: policies.link("x", "n"), "UnknownTemplate", dict(id="x")),
            (lambda: policies.link("t", "n"), "SlotMismatch", dict(slots=("?principal",))),
            (lambda: policies.link("t", "l", principal=ALICE), "IdInUse", dict(id="l")),
            (lambda: policies.link("t", "n", principal="a"), "NotAUid", dict(text="a", index=0)),
            (lambda: policies.link("t", "n", resource=""), "NotAUid", dict(text="", index=2)),
            (lambda: policies.unlink("s"), "NotALink", dict(id="s")),
            (lambda: policies.unlink("x"), "UnknownPolicy", dict(id="x")),
            (lambda: policies.remove_static("x"), "UnknownPolicy", dict(id="x")),
            (lambda: policies.remove_static("l"), "NotStatic", dict(id="l")),
            (lambda: policies.remove_template("t"), "TemplateHasLinks", dict(id="t")),
            (lambda: policies.remove_template("s"), "NotATemplate", dict(id="s")),
            (lambda: policies.effect("x"), "UnknownPolicy", dict(id="x")),
            (lambda: policies.annotation("s", "a b"), "NotAName", dict(text="a b")),
            (lambda: policies.annotation("x", "a"), "UnknownPolicy", dict(id="x")),
            (lambda: EntityUid.make("A B", "c"), "NotAName", dict(text="A B")),
            (lambda: EntityUid("z"), "NotAUid", dict(text="z")),
        )
        for call, name, attributes in cases:
            with self.assertRaises(CedarError) as caught:
                call()
            error = caught.exception
            self.assertIs(type(error), getattr(cedar_store, name), error)
            for attribute, value in attributes.items():
                self.assertEqual(getattr(error, attribute), value, name)
            for item in error.names:
                self.assertIn(item, str(error))
            copy = pickle.loads(pickle.dumps(error))
            self.assertEqual((type(copy), copy.names, str(copy)), (type(error), error.names, str(error)))
        closed = Store()
        closed.close()
        with self.assertRaisesRegex(cedar_store.Closed, "a store") as caught:
            closed.uids()
        self.assertEqual(caught.exception.object, "a store")

    def test_built_in_exceptions(self):
        for name, base in (("UnknownEntity", KeyError), ("NotAUid", ValueError), ("OutOfMemory", MemoryError)):
            self.assertTrue(issubclass(getattr(cedar_store, name), (base, CedarError)))
            self.assertTrue(issubclass(getattr(cedar_store, name), base))


class Interop(unittest.TestCase):
    def test_dataclasses_are_entities_and_records(self):
        @dataclasses.dataclass(frozen=True)
        class Home:
            city: str

        @dataclasses.dataclass(frozen=True)
        class User:
            uid: str
            parents: tuple = ()
            tags: dict = dataclasses.field(default_factory=dict)
            home: Home = Home("Rome")

        store = Store([User(ALICE, (STAFF,), {"t": 1}), (STAFF, [])])
        self.assertEqual(store[ALICE], Entity(ALICE, [STAFF], attrs={"home": {"city": "Rome"}}, tags={"t": 1}))
        store.upsert([User(ALICE)])
        self.assertEqual((store.parents(ALICE), store.tag_keys(ALICE)), ([], []))
        with self.assertRaisesRegex(TypeError, "Home has no field uid"):
            store.add([Home("Rome")])
        for other in (Home, 5, ALICE, (ALICE,), (ALICE, [], []), None):
            with self.assertRaisesRegex(TypeError, "expected an Entity, a dataclass with a uid, or a pair|dataclass"):
                store.add([other])

    def test_iterables_of_pairs(self):
        pairs = [(ALICE, [STAFF]), (STAFF, [])]
        for entities in (pairs, iter(pairs), dict(pairs), dict(pairs).items(), map(list, pairs)):
            self.assertEqual(Store(entities).ancestors(ALICE), [STAFF])
        self.assertEqual(Store({ALICE: iter([STAFF])}).ancestors(ALICE), [STAFF])

    def test_to_dot(self):
        here = os.path.dirname(os.path.abspath(__file__))
        with open(os.path.join(here, "..", "..", "rust", "src", "handwritten", "dot.rs"), encoding="utf-8") as file:
            self.assertIn("cluster {name}", file.read())
        store = Store({'A::B::"x\\"y"': ['A::"é"', 'C::"c"'], 'A::"b"': [], 'A::"a"': ['A::"b"']})
        lines = store.to_dot().splitlines()
        self.assertEqual(lines[:3], ["digraph store {", "  rankdir=BT;", "  node [shape=box];"])
        self.assertIn('    "A::B::\\"x\\\\\\"y\\"" [label="x\\\\\\"y"];', lines)
        order = [line.strip() for line in lines if "->" in line or "subgraph" in line]
        self.assertEqual([line.split(" ")[0] for line in order[:2]], ["subgraph"] * 2)
        self.assertTrue(order[2].startswith('"A::\\"a\\"" -> "A::\\"b\\""'))
        self.assertEqual(sum("dotted" in line for line in lines), 2)
        self.assertEqual(Store({'A::"a"': ['A::"b"'], 'A::"b"': []}).to_dot(), store.slice(['A::"a"']).to_dot())


def random_argument(rng):
    """Returns an argument of any type, which is valid only by chance."""
    return rng.choice((
        None, True, 0, -1, 7, 2**31, 2**64, -(2**70), 1.5, "", "a", "\ud800", "\0", "é" * 50, "a" * 100_000, b"a",
        ALICE, str(STAFF), 'A::"', [], [ALICE], [5], [None], (), (ALICE, [STAFF]), [(ALICE, [STAFF])],
        [(ALICE, STAFF)], {},
        {ALICE: [STAFF]}, {5: []}, {ALICE: None}, {ALICE: [ALICE]}, set(), frozenset([ALICE]), object(), int, Store(),
        Policies(), Entity(ALICE, [STAFF], attrs={"k": [1]}), [Entity(ALICE)], PRINCIPAL, PRINCIPAL.eq(1),
        Slot("?action"), Constraint.is_in(ALICE), Constraint.is_in("x"), Constraint(9), Effect.FORBID, Mode.ASSUME,
        range(3), iter([ALICE]), lambda: None, UnknownExpr("x"), Extension("ip", "1"),
    ))


class AnyArguments(unittest.TestCase):
    def test_any_arguments_give_a_result_or_a_named_exception(self):
        rng, failed = random.Random(3), {}
        allowed = (CedarError, TypeError, ValueError)
        for round in range(250):
            objects = [Store({ALICE: [STAFF]}), Policies()]
            objects[1].add_static("a")
            if round % 10 == 9:
                for one in objects:
                    one.close()
            for one in objects:
                for name, method in inspect.getmembers(one, callable):
                    if name.startswith("__") and name not in ("__contains__", "__getitem__", "__eq__", "__init__"):
                        continue
                    if name.startswith("_") and not name.startswith("__"):
                        continue
                    count = rng.randrange(4)
                    try:
                        method(*[random_argument(rng) for _ in range(count)])
                    except allowed as error:
                        failed[type(error).__name__] = failed.get(type(error).__name__, 0) + 1
                        self.assertTrue(str(error), f"{name}: {type(error)}")
            self.assertIsInstance(repr(objects), str)
        self.assertLessEqual({"TypeError", "ValueError", "Closed", "NotAUid", "UnknownEntity"}, set(failed))

    def test_any_arguments_of_types_and_functions(self):
        rng = random.Random(4)
        calls = (
            Entity, Store, Policies, EntityUid, EntityUid.make, EntityUid.escape, Constraint.is_eq, Lit, Eq, Call,
            SetOf, Slot, Entity.from_dataclass, cedar_store.is_uid, cedar_store.run, cedar_store.status_text,
            cedar_store.values.same, cedar_store.values.to_nodes, cedar_store.values.from_nodes,
            cedar_store.values.CedarSet, Expr,
        )
        for _ in range(4000):
            call = rng.choice(calls)
            try:
                call(*[random_argument(rng) for _ in range(rng.randrange(4))])
            except (CedarError, TypeError, ValueError):
                pass


if __name__ == "__main__":
    unittest.main()
