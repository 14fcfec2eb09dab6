"""Tests of values and expressions, of their nodes, and of entities with attributes and tags.

Most of them need only uids from the library. The last class is an exception: it has one version for a library that
takes values, and one for a library that does not.
"""
import copy
import pickle
import random
import unittest

from cedar_store import CedarError, Closed, Entity, EntityUid, Mode, Store
from cedar_store import values as v
from cedar_store.values import Extension, Node, Record, expr_from_nodes, expr_to_nodes, from_nodes, same, to_nodes

ALICE = EntityUid('User::"alice"')
DEPTH = 20_000


def kinds(nodes):
    return [node.kind for node in nodes]


def random_value(rng, depth):
    kind = rng.randrange(7 if depth else 5)
    if kind < 5:
        text = rng.choice(("", "a", "é🦀", "a\0b"))
        return (rng.random() < 0.5, rng.randrange(-5, 5), text, ALICE, Extension("ip", text))[kind]
    members = [random_value(rng, depth - 1) for _ in range(rng.randrange(4))]
    if kind == 5:
        return members
    return {rng.choice("abc"): member for member in members}


def random_expr(rng, depth):
    kind = rng.randrange(12 if depth else 5)
    if kind < 5:
        literal = v.Lit(rng.choice((True, False, 1, -1, "", "User", ALICE)))
        return (literal, v.PRINCIPAL, v.Slot("?action"), v.UnknownExpr("x"), v.UnknownExpr("x", "A::B"))[kind]
    left, right = random_expr(rng, depth - 1), random_expr(rng, depth - 1)
    build = (
        lambda: v.SetOf(left, right),
        lambda: v.Call("ns::f", left),
        lambda: ~left,
        lambda: left & right,
        lambda: left.eq(right),
        lambda: left.is_in(right),
        lambda: left.is_type("A::B"),
    )[kind - 5]
    return build()


class Values(unittest.TestCase):
    def test_nodes_of_each_kind_of_value(self):
        for value, text, nodes in (
            (True, b"", [Node(0, number=1)]),
            (False, b"", [Node(0)]),
            (-7, b"", [Node(1, number=-7)]),
            ("é", "é".encode(), [Node(2, 0, 0, 2)]),
            (ALICE, b'User::"alice"', [Node(3, 0, 0, 13)]),
            (frozenset(), b"", [Node(4)]),
            ([2, 1], b"", [Node(1, number=2), Node(1, number=1), Node(4, 2)]),
            ({"b": 1, "a": "b"}, b"ba", [Node(2, 0, 0, 1), Node(1, number=1), Node(2, 0, 1, 2), Node(2, 0, 0, 1)]),
            (Extension("ip", "::1"), b"ip::1", [Node(2, 0, 2, 5), Node(6, 1, 0, 2)]),
        ):
            encoded = to_nodes(value)
            self.assertEqual(encoded, (text, nodes + ([Node(5, 2)] if isinstance(value, dict) else [])))
            self.assertTrue(same(from_nodes(*encoded), value), value)
        types = [type(from_nodes(*to_nodes(value))) for value in (True, 1, ALICE)]
        self.assertEqual(types, [bool, int, EntityUid])
        encoder = v.Encoder()
        encoder.term(value)
        self.assertEqual(v.unpack_nodes(encoder.packed().tobytes()), encoder.nodes)
        self.assertEqual(len(encoder.packed().tobytes()), 40 * len(encoder.nodes))

    def test_encode_and_decode_random_values(self):
        rng, mixed_sets = random.Random(1), 0
        for _ in range(3000):
            value = random_value(rng, 4)
            decoded = from_nodes(*to_nodes(value))
            mixed_sets += "CedarSet" in repr(decoded)
            self.assertTrue(same(value, decoded), value)
            self.assertEqual(from_nodes(*to_nodes(decoded)), decoded)
        self.assertTrue(0 < mixed_sets < 300, mixed_sets)

    def test_deep_values(self):
        for wrap, other in (
            (lambda member: [member], 1),
            (lambda member: {"a": member}, 1),
            (lambda member: frozenset([member]), 2),
        ):
            value = 0
            for _ in range(1000):
                value = wrap(value)
            text, nodes = to_nodes(value)
            decoded = from_nodes(text, nodes)
            self.assertTrue(same(value, decoded))
            self.assertFalse(same(value, wrap(value)) or same(decoded, other))
        nodes = [Node(1)] + [Node(4, 1)] * DEPTH
        decoded = from_nodes(b"", nodes)
        self.assertEqual(to_nodes(decoded), (b"", nodes))
        self.assertTrue(same(decoded, from_nodes(b"", nodes)))
        nodes = [Node(2, 0, 0, 1)] * DEPTH + [Node(1)] + [Node(5, 1)] * DEPTH
        self.assertEqual(to_nodes(from_nodes(b"a", nodes)), (b"a", nodes))

    def test_values_that_are_equal_only_in_python(self):
        self.assertTrue(same([1, 2], {2, 1}) and same([1, 1], [1]) and same({"a": 1}, Record(a=1)))
        self.assertFalse(same(True, 1) or same(0, False) or same([True], [1]) or same({"a": True}, {"a": 1}))
        self.assertFalse(same(ALICE, str(ALICE)) or same([1], 1) or same([], {}))
        for members in ([True, 1], [[0], [False]], [ALICE, str(ALICE)], [{"a": 0}, {"a": False}]):
            read = from_nodes(*to_nodes(members))
            self.assertEqual((type(read), len(read), read), (v.CedarSet, 2, v.CedarSet(members[::-1])))
            self.assertTrue(all(member in read for member in members) and same(read, members))
            self.assertEqual(hash(read), hash(v.CedarSet(members[::-1])))
            self.assertTrue(read != v.CedarSet(members[:1]) and v.CedarSet(members[:1]) == frozenset(list(read)[:1]))
            store = Store([Entity(uid("a"), attrs={"set": members})])
            self.assertEqual((store.get(uid("a"), "set"), store[uid("a")].attrs), (read, {"set": read}))
            self.assertEqual(pickle.loads(pickle.dumps(read)), read)
        nested = 0
        for _ in range(900):
            nested = [nested, 1, True]
        self.assertTrue(same(from_nodes(*to_nodes(nested)), nested))
        for members in ([], [1, "a"], [2, [3]]):
            read = from_nodes(*to_nodes(members))
            self.assertIs(type(read), frozenset)
            self.assertEqual((v.CedarSet(read), hash(v.CedarSet(read))), (read, hash(read)))
            self.assertEqual(read, v.CedarSet(read))
        self.assertEqual(v.CedarSet([1]) | v.CedarSet([True]), v.CedarSet([True, 1]))
        self.assertFalse(object() in v.CedarSet([1]) or v.CedarSet([1]) == 1)
        self.assertEqual(from_nodes(*to_nodes([[True], 1])), frozenset({frozenset({True}), 1}))
        decoded = from_nodes(*to_nodes({"a": [1, 1, {"b": 2}], "c": True}))
        self.assertEqual(decoded, {"a": {1, Record(b=2)}, "c": True})

    def test_records_are_immutable(self):
        record = from_nodes(*to_nodes({"a": {"b": 1}}))
        for call in (
            lambda: record.update(a=1),
            lambda: record.pop("a"),
            lambda: record.clear(),
            lambda: record.setdefault("b", 1),
            lambda: record.__setitem__("a", 1),
            lambda: record.__delitem__("a"),
            lambda: record.__ior__({}),
        ):
            with self.assertRaises(TypeError):
                call()
        for copied in (pickle.loads(pickle.dumps(record)), copy.deepcopy(record), copy.copy(record), Record(record)):
            self.assertEqual((type(copied), copied, hash(copied)), (Record, {"a": {"b": 1}}, hash(record)))

    def test_encoding_objects_that_are_not_values_fails(self):
        for value in (1.5, None, b"a", object(), [None], {"a": 1.5}, {1: 2}, {"a": v.PRINCIPAL}, [v.Lit(1)]):
            with self.assertRaises(TypeError):
                to_nodes(value)
        for number in (1 << 63, -(1 << 63) - 1):
            with self.assertRaises(ValueError):
                to_nodes([number])
        for number in ((1 << 63) - 1, -(1 << 63)):
            self.assertEqual(from_nodes(*to_nodes(number)), number)

    def test_decoding_invalid_nodes_of_values_fails(self):
        number, text = Node(1), Node(2)
        for nodes in (
            [],
            [number, number],
            [Node(4, 1)],
            [number, Node(4, 2)],
            [Node(0, number=2)],
            [Node(2, 0, 0, 9)],
            [Node(2, 0, 1, 0)],
            [number, number, Node(5, 1)],
            [text, Node(5, 1)],
            [number, Node(6, 1)],
            [Node(6, 0)],
            [text, text, Node(6, 2)],
            [Node(7)],
            [Node(9)],
            [number, number, Node(12)],
            [Node(15, 1)],
            [number, Node(15, 2)],
            [Node(16)],
        ):
            with self.assertRaises(ValueError, msg=nodes):
                from_nodes(b"a", nodes)
        with self.assertRaises(ValueError):
            from_nodes(b"\xff", [Node(2, 0, 0, 1)])


class Expressions(unittest.TestCase):
    def test_nodes_and_text_of_each_kind_of_expression(self):
        for expr, expected_kinds, text in (
            (
                v.PRINCIPAL.is_in(ALICE) & v.CONTEXT.eq(1),
                [7, 3, 13, 7, 1, 12, 11],
                '((principal in User::"alice") && (context == 1))',
            ),
            (~v.RESOURCE.is_type("A::B"), [7, 14, 10], "!((resource is A::B))"),
            (
                v.ACTION.is_in(v.SetOf(ALICE, v.Slot("?action"))),
                [7, 3, 8, 4, 13],
                '(action in [User::"alice", ?action])',
            ),
            (v.Call("ip", "::1").eq(True), [2, 6, 0, 12], '(ip("::1") == true)'),
            (v.UnknownExpr("x", "A"), [2, 9], 'unknown("x")'),
            (False & v.UnknownExpr("it's"), [0, 9, 11], '(false && unknown("it\\\'s"))'),
        ):
            encoded = expr_to_nodes(expr)
            self.assertEqual((kinds(encoded[1]), str(expr)), (expected_kinds, text))
            self.assertEqual(expr_from_nodes(*encoded), expr)
            self.assertEqual(kinds(to_nodes(expr)[1]), expected_kinds + [15])
            self.assertEqual(from_nodes(*to_nodes(expr)), expr)

    def test_encode_and_decode_random_expressions(self):
        rng = random.Random(2)
        for _ in range(1000):
            expr, other = random_expr(rng, 4), random_expr(rng, 4)
            decoded = expr_from_nodes(*expr_to_nodes(expr))
            self.assertEqual((decoded, hash(decoded), repr(decoded)), (expr, hash(expr), repr(expr)))
            self.assertEqual(from_nodes(*to_nodes(expr)), expr)
            self.assertEqual(expr == other, expr_to_nodes(expr) == expr_to_nodes(other))
            self.assertEqual(pickle.loads(pickle.dumps(expr)), expr)

    def test_deep_expressions(self):
        expr, other = v.PRINCIPAL, v.ACTION
        for _ in range(1000):
            expr, other = ~expr & True, ~other & True
        self.assertEqual(len(str(expr)), 1000 * len("(!() && true)") + len("principal"))
        decoded = expr_from_nodes(*expr_to_nodes(expr))
        self.assertTrue(decoded == expr and decoded != other and hash(decoded) == hash(expr))
        self.assertEqual(copy.deepcopy(expr), expr)
        nodes = [Node(7)] + [Node(10)] * DEPTH
        self.assertEqual(expr_to_nodes(expr_from_nodes(b"", nodes)), (b"", nodes))

    def test_literals_of_different_types_differ(self):
        literals = [v.Lit(value) for value in (True, 1, False, 0, ALICE, str(ALICE))]
        self.assertEqual(len(set(literals)), 6)
        self.assertEqual([type(literal.value) for literal in literals], [bool, int, bool, int, EntityUid, str])

    def test_expressions_are_immutable(self):
        expr = v.PRINCIPAL & True
        for name in ("operands", "_data", "other"):
            with self.assertRaises(AttributeError):
                setattr(expr, name, ())
            with self.assertRaises(AttributeError):
                delattr(expr, name)

    def test_invalid_operands_and_names(self):
        for call in (
            lambda: v.PRINCIPAL and v.ACTION,
            lambda: not v.PRINCIPAL,
            lambda: v.PRINCIPAL & None,
            lambda: v.Lit(1.5),
            lambda: v.Lit({}),
            lambda: v.Expr(),
            lambda: v.Call(5),
            lambda: v.PRINCIPAL.is_type(None),
        ):
            with self.assertRaises(TypeError):
                call()
        for call in (lambda: v.Var("user"), lambda: v.Slot("principal"), lambda: expr_to_nodes(v.Lit(1 << 63))):
            with self.assertRaises(ValueError):
                call()

    def test_decoding_invalid_nodes_of_expressions_fails(self):
        number = Node(1)
        for nodes in (
            [],
            [number, number],
            [Node(10)],
            [number, Node(11)],
            [Node(14)],
            [number, Node(5, 0)],
            [Node(7, number=4)],
            [Node(8, number=3)],
            [Node(7, number=-1)],
            [number, Node(9, 1)],
            [number, number, Node(9, 2)],
            [Node(4, 1)],
            [Node(6, 1)],
            [number, Node(15, 1)],
        ):
            with self.assertRaises(ValueError, msg=nodes):
                expr_from_nodes(b"", nodes)


def uid(name):
    return EntityUid(f'A::"{name}"')


class Entities(unittest.TestCase):
    def test_entities_are_equal_if_all_parts_are(self):
        entity = Entity(uid("a"), [uid("b")], attrs={"x": [1, {"y": True}]}, tags={"t": v.UnknownExpr("u")})
        equal = Entity(str(uid("a")), {uid("b")}, attrs={"x": ({"y": True}, 1)}, tags={"t": v.UnknownExpr("u")})
        self.assertTrue(entity == equal and hash(entity) == hash(equal))
        for other in (
            Entity(uid("b"), [uid("b")], attrs=entity.attrs, tags=entity.tags),
            Entity(uid("a"), [], attrs=entity.attrs, tags=entity.tags),
            Entity(uid("a"), [uid("b")], attrs={"x": [1, {"y": 1}]}, tags=entity.tags),
            Entity(uid("a"), [uid("b")], attrs=entity.attrs, tags={"t": v.UnknownExpr("w")}),
            Entity(uid("a"), [uid("b")], attrs=entity.attrs, tags={"t": "u"}),
            Entity(uid("a"), [uid("b")], attrs=entity.attrs),
            Entity(uid("a"), [uid("b")], attrs=entity.attrs, tags=entity.tags, indirect_ancestors=[uid("c")]),
            uid("a"),
        ):
            self.assertNotEqual(entity, other)
        self.assertEqual(pickle.loads(pickle.dumps(entity)), entity)
        other = Entity(uid("a"), [uid("b")], indirect_ancestors=[uid("b"), uid("c")])
        self.assertEqual((other.indirect_ancestors, other.ancestors), ({uid("c")}, {uid("b"), uid("c")}))

    def test_invalid_arguments_and_immutability(self):
        for call, error in (
            (lambda: Entity("a"), CedarError),
            (lambda: Entity(uid("a"), ["b"]), CedarError),
            (lambda: Entity(uid("a"), uid("b")), TypeError),
            (lambda: setattr(Entity(uid("a")), "uid", uid("b")), AttributeError),
            (lambda: Entity(uid("a")).attrs.update(x=1), TypeError),
        ):
            with self.assertRaises(error):
                call()

    def test_store_of_entities_without_content(self):
        entities = [Entity(uid("a"), [uid("b")]), (uid("b"), [uid("c")]), Entity(uid("x"))]
        store = Store.build(entities)
        self.assertTrue(store == Store(entities) == Store({uid("a"): [uid("b")], uid("b"): [uid("c")], uid("x"): []}))
        store.add([Entity(uid("c"), [uid("d")])])
        store.upsert([Entity(uid("x"), [uid("a")])])
        self.assertEqual(store.ancestors(uid("x")), [uid(name) for name in "abcd"])
        with self.assertRaises(CedarError) as caught:
            Store.build([Entity(uid("a"), [uid("a")])])
        self.assertEqual(caught.exception.reason, "cycle")
        with self.assertRaises(ValueError):
            Store.build([Entity(uid("a"))], 3)


DOC = Entity(
    uid("a"),
    [uid("b")],
    attrs={
        "owner": ALICE,
        "é": {"level": 3, "of": [1, "two", {"ip": Extension("ip", "::1")}], "none": {}},
        "later": v.UnknownExpr("x", "A").is_in(ALICE),
    },
    tags={"": "no key", "set": []},
)


class Contents(unittest.TestCase):
    def test_build_and_read_content(self):
        store = Store.build([DOC, Entity(uid("b"), [uid("c")], attrs={"x": True})])
        for key, term in DOC.attrs.items():
            read = store.get(uid("a"), key)
            self.assertTrue(read == term if isinstance(term, v.Expr) else same(read, term), key)
        self.assertEqual((store.get_tag(uid("a"), ""), store.get(uid("a"), "x")), ("no key", None))
        self.assertEqual((store.attrs_len(uid("a")), store.tags_len(uid("a"))), (3, 2))
        self.assertEqual((store.attr_keys(uid("a")), store.tag_keys(uid("a"))), (["later", "owner", "é"], ["", "set"]))
        expected = Entity(DOC.uid, DOC.parents, attrs=DOC.attrs, tags=DOC.tags, indirect_ancestors=[uid("c")])
        self.assertEqual(store.entity(uid("a")), expected)
        self.assertIs(store.get(uid("b"), "x"), True)
        for call in (lambda: store.get(uid("z"), "x"), lambda: store.get_tag("z", "x")):
            with self.assertRaises(CedarError):
                call()
        with self.assertRaises(TypeError):
            store.get(uid("a"), 5)
        store.close()
        with self.assertRaises(Closed):
            store.get(uid("a"), "x")

    def test_add_and_upsert_content(self):
        store = Store({uid("b"): [uid("c")]})
        store.add([DOC])
        self.assertEqual((store.get(uid("a"), "owner"), store.ancestors(uid("a"))), (ALICE, [uid("b"), uid("c")]))
        store.upsert([Entity(uid("a"), attrs={"owner": 1})])
        self.assertEqual((store.get(uid("a"), "owner"), store.tags_len(uid("a"))), (1, 0))

    def test_build_with_indirect_ancestors(self):
        entity = Entity(uid("a"), [uid("b")], indirect_ancestors=[uid("c"), uid("d")])
        store = Store.build([entity], Mode.ASSUME)
        self.assertEqual(store.entity(uid("a")), entity)

    def test_pickle_stores_with_content(self):
        for store in (
            Store.build([DOC, Entity(uid("b"), [uid("c")])]),
            Store.build([Entity(uid("a"), [uid("b")], indirect_ancestors=[uid("d")], attrs={"x": 1})], Mode.ASSUME),
        ):
            unpickled = pickle.loads(pickle.dumps(store))
            self.assertEqual([unpickled.entity(uid) for uid in unpickled], [store.entity(uid) for uid in unpickled])
            self.assertEqual(len(unpickled), len(store))

    def test_values_of_1000_levels_are_too_deep(self):
        for levels, is_too_deep in ((999, False), (1000, True)):
            value = 0
            for _ in range(levels):
                value = [value]
            store = Store()
            if is_too_deep:
                with self.assertRaises(CedarError) as caught:
                    store.add([Entity(uid("a"), attrs={"x": value})])
                self.assertEqual((caught.exception.reason, str(caught.exception)), ("too deep", "too deep"))
            else:
                store.add([Entity(uid("a"), attrs={"x": value})])
                self.assertTrue(same(store.get(uid("a"), "x"), value))


if __name__ == "__main__":
    unittest.main()
