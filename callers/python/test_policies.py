"""Tests of policy sets. `test_cedar_store.py` runs them too."""
import unittest

from cedar_store import Bound, CedarError, Closed, Constraint, Effect, Policies
from cedar_store.values import ACTION, CONTEXT, PRINCIPAL, RESOURCE, Call, Lit, SetOf, Slot, UnknownExpr

ZEROS = bytes(16)
SLOT = Constraint.is_eq_slot()


def uid(name):
    return f'A::"{name}"'


class Edits(unittest.TestCase):
    def test_add_link_and_remove(self):
        with Policies() as policies:
            policies.add_static("s", Effect.FORBID)
            policies.add_template("t", principal=SLOT, action=SLOT, resource=SLOT)
            policies.link("t", "l", principal=uid("a"), action='Action::"go"', resource=uid("b"))
            self.assertEqual((policies.bodies(), policies.policies()), (["s", "t"], ["s", "l"]))
            policies.unlink("l")
            policies.remove_template("t")
            policies.remove_static("s")
            self.assertEqual((policies.bodies(), policies.policies()), ([], []))

    def test_failed_edits_report_the_id_and_change_nothing(self):
        policies = Policies()
        policies.add_template("t", principal=SLOT)
        policies.link("t", "l", principal=uid("a"))
        for call, text in (
            (lambda: policies.add_static("l"), "occupied l"),
            (lambda: policies.link("x", "m"), "no template to link x"),
            (lambda: policies.link("t", "t", principal=uid("a")), "occupied t"),
            (lambda: policies.unlink("t"), "not a link t"),
            (lambda: policies.remove_static("l"), "not a static policy l"),
            (lambda: policies.remove_template("t"), "template with links t"),
        ):
            with self.assertRaises(CedarError) as caught:
                call()
            self.assertEqual(str(caught.exception), text)
        self.assertEqual((policies.bodies(), policies.policies()), (["t"], ["l"]))

    def test_ids_and_slot_values(self):
        policies = Policies(key=ZEROS)
        for id in ("", "it's", "\0", "é"):
            policies.add_static(id)
        self.assertEqual(policies.policies(), ["", "it's", "\0", "é"])
        with self.assertRaises(CedarError) as caught:
            policies.add_static("\ud800")
        self.assertEqual(caught.exception.reason, "not UTF-8")
        policies.add_template("t", principal=SLOT)
        for value, reason in (("", "not a uid"), ("a", "not a uid"), (None, "arity")):
            with self.assertRaises(CedarError) as caught:
                policies.link("t", "l", principal=value)
            self.assertEqual(caught.exception.reason, reason)

    def test_merge(self):
        policies, other = Policies(), Policies()
        policies.add_static("p")
        other.add_static("p", Effect.FORBID)
        before = policies.copy()
        with self.assertRaises(CedarError):
            policies.merge(other)
        self.assertTrue(policies == before)
        self.assertEqual(policies.merge(policies), {})
        self.assertTrue(policies == before)
        self.assertEqual(policies.merge(other, rename=True), {"p": "policy0"})
        self.assertFalse(policies == before)


class Reads(unittest.TestCase):
    def setUp(self):
        self.policies = Policies(key=ZEROS)
        self.policies.add_static("s", Effect.FORBID)
        self.policies.add_template("t", principal=SLOT, resource=SLOT)
        self.policies.link("t", "l", principal=uid("a"), resource=uid("b"))

    def test_read_the_parts_of_each_kind_of_item(self):
        policies = self.policies
        self.assertEqual([policies.get(id) for id in "sltx"], [Bound.STATIC, Bound.LINK, Bound.TEMPLATE, None])
        self.assertEqual([policies.effect(id) for id in "slt"], [Effect.FORBID, Effect.PERMIT, Effect.PERMIT])
        self.assertEqual((policies.slots("t"), policies.slots("s")), ({"principal", "resource"}, frozenset()))
        self.assertEqual(policies.env("l"), (uid("a"), None, uid("b")))
        self.assertEqual(policies.env("s"), (None, None, None))
        self.assertEqual((policies.template_id("l"), policies.template_id("s")), ("t", "s"))
        self.assertEqual((policies.linked("t"), policies.linked("s")), (["l"], ["s"]))
        self.assertEqual((policies.annotations("s"), policies.annotation("l", "key")), ({}, None))

    def test_texts_of_policies_and_templates(self):
        policies = self.policies
        self.assertIn("forbid", policies.policy_text("s"))
        self.assertIn("?principal", policies.template_text("t"))
        for text in (policies.policy_text("l"), policies.template_text("s")):
            self.assertTrue(text)
        self.assertIn(policies.template_text("t"), str(policies))
        with Policies() as empty:
            self.assertIsInstance(str(empty), str)

    def test_reads_of_unbound_ids_fail(self):
        policies = self.policies
        for call, id in (
            (policies.effect, "x"), (policies.slots, "l"), (policies.env, "t"), (policies.template_id, "t"),
            (policies.linked, "l"), (policies.annotations, "x"), (policies.policy_text, "t"),
            (policies.template_text, "l"),
        ):
            with self.assertRaises(CedarError) as caught:
                call(id)
            self.assertEqual(caught.exception.reason, "no body", call)
        with self.assertRaises(CedarError) as caught:
            policies.annotation("s", "a b")
        self.assertEqual(caught.exception.reason, "not a name")
        policies.close()
        with self.assertRaises(Closed):
            policies.get("s")


class Bodies(unittest.TestCase):
    def setUp(self):
        self.policies = Policies(key=ZEROS)

    def test_add_and_read_a_whole_body(self):
        policies, when = self.policies, PRINCIPAL.eq(Lit(1)) & ~CONTEXT.is_in(ACTION)
        constraints = (
            Constraint.is_entity_type_in("A", uid("group")),
            Constraint.is_in('Action::"get"', 'Action::"put"'),
            Constraint.is_eq(uid("file")),
        )
        scope = dict(zip(("principal", "action", "resource"), constraints))
        for add, id in ((policies.add_static, "s"), (policies.add_template, "t")):
            add(id, Effect.FORBID, **scope, annotations={"why": "é", "if": ""}, when=when)
            read = (policies.principal_constraint(id), policies.action_constraint(id), policies.resource_constraint(id))
            self.assertEqual(read, constraints)
            self.assertEqual((policies.effect(id), policies.annotations(id)), (Effect.FORBID, {"if": "", "why": "é"}))
            self.assertEqual(policies.non_scope_constraints(id), when)
        self.assertEqual(policies.condition("s").operands[1].operands[1].operands[1], when)
        self.assertEqual((policies.get("s"), policies.get("t")), (Bound.STATIC, Bound.TEMPLATE))

    def test_add_and_read_each_kind_of_constraint(self):
        policies, group = self.policies, uid("group")
        untyped = [
            Constraint.any(), Constraint.is_eq(group), Constraint.is_eq_slot(), Constraint.is_in(group),
            Constraint.is_in_slot(),
        ]
        typed = [
            Constraint.is_entity_type("B::C"), Constraint.is_entity_type_in("B::C", group),
            Constraint.is_entity_type_in_slot("B::C"),
        ]
        for name, read, constraints in (
            ("principal", policies.principal_constraint, untyped + typed),
            ("action", policies.action_constraint, untyped + [Constraint.is_in(), Constraint.is_in(group, group)]),
            ("resource", policies.resource_constraint, untyped + typed),
        ):
            for index, constraint in enumerate(constraints):
                id = f"{name} {index}"
                policies.add_template(id, **{name: constraint})
                self.assertEqual(read(id), constraint)
                self.assertEqual(policies.slots(id), {name} if constraint.kind in (2, 4, 7) else set())
        policies.link("principal 7", "l", principal=uid("a"))
        self.assertEqual(policies.principal_constraint("l"), Constraint.is_entity_type_in("B::C", uid("a")))
        policies.link("action 4", "m", action='Action::"go"')
        self.assertEqual(policies.action_constraint("m"), Constraint.is_in('Action::"go"'))

    def test_default_body_equals_unconstrained_body(self):
        other = Policies(key=ZEROS)
        self.policies.add_static("s")
        other.add_static("s", principal=Constraint.any())
        self.policies.add_template("t", principal=SLOT, resource=SLOT)
        other.add_template("t", principal=Constraint.is_eq_slot(), resource=SLOT)
        self.assertTrue(self.policies == other)
        self.assertIsNone(other.non_scope_constraints("s"))
        other.add_static("u", when=True)
        self.assertEqual(other.non_scope_constraints("u"), Lit(True))

    def test_invalid_bodies_fail(self):
        add, is_in = self.policies.add_static, Constraint.is_in
        for body, reason in (
            (dict(when=PRINCIPAL.eq(Slot("?principal"))), "not static"),
            (dict(resource=Constraint.is_in_slot()), "not static"),
            (dict(principal=is_in("a")), "not a uid"),
            (dict(action=is_in(uid("a"), "b")), "not a uid"),
            (dict(resource=Constraint.is_entity_type("A::")), "not a name"),
            (dict(action=Constraint.is_entity_type("A")), "bad argument"),
            (dict(principal=Constraint(8)), "bad argument"),
            (dict(annotations={"not so": ""}), "not a name"),
            (dict(annotations={"so": "\ud800"}), "not UTF-8"),
            (dict(when=RESOURCE.is_type("1")), "not a name"),
        ):
            with self.assertRaises(CedarError) as caught:
                add("s", **body)
            self.assertEqual(caught.exception.reason, reason, body)
        self.assertEqual(self.policies.bodies(), [])
        for body in (dict(principal=is_in()), dict(resource=is_in(uid("a"), uid("b"))), dict(action=Constraint(1))):
            with self.assertRaises(ValueError):
                add("s", **body)
        add("s", when=True)
        with self.assertRaises(CedarError) as caught:
            add("s", when=True)
        self.assertEqual((caught.exception.reason, str(caught.exception)), ("occupied", "occupied s"))
        for call in (self.policies.principal_constraint, self.policies.non_scope_constraints, self.policies.condition):
            with self.assertRaises(CedarError) as caught:
                call("x")
            self.assertEqual(caught.exception.reason, "no body")


class Validity(unittest.TestCase):
    def setUp(self):
        self.policies = Policies(key=ZEROS)
        self.policies.add_static("s", Effect.FORBID, action=Constraint.is_in('Action::"get"'), when=Call("ip", "::1"))
        self.policies.add_template("t", principal=SLOT)
        self.policies.link("t", "l", principal=uid("a"))

    def validation_error(self):
        before = self.policies.copy()
        with self.assertRaises(CedarError) as caught:
            self.policies.validate()
        self.assertTrue(self.policies == before)
        return caught.exception.reason, str(caught.exception), caught.exception.names, caught.exception.uids

    def test_validate_a_valid_set(self):
        self.assertIsNone(self.policies.validate())
        self.policies.close()
        with self.assertRaises(Closed):
            self.policies.validate()

    def test_validate_reports_the_first_fault(self):
        policies = self.policies
        policies.add_template("no name", when=Call("f", 1))
        self.assertEqual(self.validation_error(), ("unknown function", "unknown function in no name", ("no name",), ()))
        policies.remove_template("no name")
        policies.add_static("it's", action=Constraint.is_in('Action::"get"', uid("a")), when=Call("f"))
        self.assertEqual(self.validation_error(), ("not actions", "uid of no action in it's", ("it's",), ()))
        policies.remove_static("it's")
        policies.add_template("u", action=Constraint.is_eq(uid("a")), when=PRINCIPAL.eq(Slot("?principal")))
        self.assertEqual(self.validation_error(), ("slot in clause", "slot in the clause of u", ("u",), ()))
        policies.add_template("none")
        policies.link("none", "m")
        self.assertEqual(self.validation_error(), ("slotless link", "link without slots m", ("m",), ()))
        policies.unlink("m")
        self.assertEqual(self.validation_error()[0], "slot in clause")

    def test_unknown_entities(self):
        policies, unknown = self.policies, UnknownExpr
        clause = SetOf(
            unknown(uid("b"), "A"), unknown(uid("a"), "B"), unknown(uid("c")), unknown("x", "A"), unknown(uid("b"), "A")
        )
        policies.add_static("v", when=clause)
        policies.add_template("w", resource=SLOT, when=~unknown(uid("é"), "A"))
        policies.link("w", "m", resource=uid("r"))
        self.assertEqual(policies.unknown_entities("v"), [uid("a"), uid("b")])
        self.assertEqual(policies.unknown_entities("v")[0].id, "a")
        self.assertEqual((policies.unknown_entities("m"), policies.unknown_entities("s")), ([uid("é")], []))
        for id in ("w", "x"):
            with self.assertRaises(CedarError) as caught:
                policies.unknown_entities(id)
            self.assertEqual(caught.exception.reason, "no body")


if __name__ == "__main__":
    unittest.main()
