//! Tests of bodies of policies: each kind of constraint, annotations and clauses are passed to the library, read back
//! and written. Also tests of the errors. The cases are chosen by hand or at random.
mod random;
mod short;
use cedar_store_proved::ast::*;
use cedar_store_proved::{Bound, Reason, Slots};
use short::{assert_error, id, parse_uid};
use std::collections::hash_map::DefaultHasher;
use std::collections::HashSet;
use std::hash::{Hash, Hasher};
use std::sync::Arc;

type Constraint = PrincipalOrResourceConstraint;

// Returns a template with these constraints.
fn template_with(
    name: &str,
    principal: Constraint,
    action: ActionConstraint,
    resource: Constraint,
    clause: Option<Expr>,
) -> Template {
    Template::new(
        id(name),
        None,
        Annotations::new(),
        Effect::Permit,
        PrincipalConstraint::new(principal),
        action,
        ResourceConstraint::new(resource),
        clause,
    )
}

fn with_clause(name: &str, clause: Option<Expr>) -> Template {
    template_with(
        name,
        Constraint::any(),
        ActionConstraint::any(),
        Constraint::any(),
        clause,
    )
}

fn all_constraints() -> [(Constraint, &'static str); 8] {
    let uid = || Arc::new(parse_uid("A::\"it\\'s\""));
    let ty = || Arc::new(EntityType::from_normalized_str("B::C").unwrap());
    [
        (Constraint::any(), ""),
        (Constraint::is_eq(uid()), " == A::\"it\\'s\""),
        (Constraint::is_eq_slot(), " == ?"),
        (Constraint::is_in(uid()), " in A::\"it\\'s\""),
        (Constraint::is_in_slot(), " in ?"),
        (Constraint::is_entity_type(ty()), " is B::C"),
        (
            Constraint::is_entity_type_in(ty(), uid()),
            " is B::C in A::\"it\\'s\"",
        ),
        (Constraint::is_entity_type_in_slot(ty()), " is B::C in ?"),
    ]
}

fn all_action_constraints() -> [(ActionConstraint, &'static str); 7] {
    let (go, stop) = (
        parse_uid("Action::\"go\""),
        parse_uid("N::Action::\"stop\""),
    );
    [
        (ActionConstraint::any(), ""),
        (ActionConstraint::is_eq(go.clone()), " == Action::\"go\""),
        (ActionConstraint::is_eq_slot(), " == ?action"),
        (ActionConstraint::is_in([]), " in []"),
        (
            ActionConstraint::is_in([go.clone()]),
            " in [Action::\"go\"]",
        ),
        (
            ActionConstraint::is_in([stop, go]),
            " in [N::Action::\"stop\",Action::\"go\"]",
        ),
        (ActionConstraint::is_in_slot(), " in ?action"),
    ]
}

fn set_of(body: &Template) -> PolicySet {
    let mut set = PolicySet::new();
    set.add_template(body.clone()).unwrap();
    set
}

// Asserts that the set returns this body under its id, as a whole and in each of its parts.
fn assert_stored(set: &PolicySet, body: &Template) {
    let stored = set.get_template(body.id()).expect("a body");
    assert_eq!(stored, body);
    assert_eq!(stored.to_string(), body.to_string());
    assert_eq!(format!("{stored:?}"), format!("{body:?}"));
    let name = body.id();
    assert_eq!(set.template_text(name).unwrap(), body.to_string());
    assert_eq!(
        &set.principal_constraint(name).unwrap(),
        body.principal_constraint()
    );
    assert_eq!(
        &set.action_constraint(name).unwrap(),
        body.action_constraint()
    );
    assert_eq!(
        &set.resource_constraint(name).unwrap(),
        body.resource_constraint()
    );
    assert_eq!(
        set.non_scope_constraints(name).unwrap().as_ref(),
        body.non_scope_constraints()
    );
    assert_eq!(set.condition(name).unwrap(), body.condition());
    assert_eq!(set.effect(name).unwrap(), body.effect());
    let annotations = set.annotations(name).unwrap().into_iter();
    assert!(annotations.eq(body
        .annotations()
        .map(|(key, annotation)| (key.to_string(), annotation.val.clone()))));
    for (key, annotation) in body.annotations() {
        let value = set.annotation(name, key.as_ref()).unwrap();
        assert_eq!(value.as_ref(), Some(&annotation.val));
    }
    let has = |slot| body.slots().any(|used| used.id == slot);
    let slots = Slots {
        principal: has(SlotId::principal()),
        action: has(SlotId::action()),
        resource: has(SlotId::resource()),
    };
    assert_eq!(set.slots(name).unwrap(), slots);
    assert!(stored.slots().eq(body.slots()));
    assert!(stored.slots().eq(&body.condition().slots()));
}

#[test]
fn each_kind_of_constraint_is_returned_unchanged() {
    for (principal, principal_text) in all_constraints() {
        for (action, action_text) in all_action_constraints() {
            for (resource, resource_text) in all_constraints() {
                let body = template_with("t", principal.clone(), action.clone(), resource, None);
                let with_slot = |text: &str, slot| text.replace('?', slot);
                let text = format!(
                    "permit(\n  principal{},\n  action{action_text},\n  resource{}\n);",
                    with_slot(principal_text, "?principal"),
                    with_slot(resource_text, "?resource")
                );
                assert_eq!(body.to_string(), text);
                let mut set = set_of(&body);
                assert_stored(&set, &body);
                let policy = StaticPolicy::try_from(body.new_id(id("s")));
                assert_eq!(policy.is_ok(), !text.contains('?'));
                if let Ok(policy) = policy {
                    set.add_static(policy.clone()).unwrap();
                    assert_stored(&set, &template_of(policy.clone()));
                    assert_eq!(set.get(&id("s")), Some(&Policy::from(policy)));
                }
            }
        }
    }
}

// Returns the template of a static policy.
fn template_of(policy: StaticPolicy) -> Template {
    Template::from(TemplateBody::from(policy))
}

// Asserts that a link of a set is equal to a link that is made without a set. Returns whether the body was linked.
fn link_and_compare(set: &mut PolicySet, body: &Template, values: SlotEnv) -> bool {
    let name = id("l");
    let expected = Template::link(Arc::new(body.clone()), name.clone(), values.clone());
    match (set.link(body.id(), &name, values), expected) {
        (Ok(link), Ok(expected)) => {
            assert_eq!(link, &expected);
            assert_eq!(link.to_string(), expected.to_string());
        }
        (Err(error), Err(expected)) => {
            assert_eq!(error, expected);
            return false;
        }
        (actual, expected) => panic!("{actual:?} and {expected:?}"),
    }
    // read again, without a cache
    let set = set.clone();
    let link = set.get(&name).unwrap();
    assert_eq!(set.policy_text(&name).unwrap(), link.to_string());
    assert_eq!(
        set.principal_constraint(&name).unwrap(),
        link.principal_constraint()
    );
    assert_eq!(
        set.action_constraint(&name).unwrap(),
        link.action_constraint()
    );
    assert_eq!(
        set.resource_constraint(&name).unwrap(),
        link.resource_constraint()
    );
    assert_eq!(set.condition(&name).unwrap(), link.condition());
    let clause = set.non_scope_constraints(&name).unwrap();
    assert_eq!(clause.as_ref(), link.non_scope_constraints());
    true
}

// Asserts that the text of a set consists of the texts of its bodies and its policies.
fn assert_text(set: &PolicySet) {
    let lines = |texts: Vec<String>| texts.join("\n");
    let bodies = lines(set.all_templates().map(Template::to_string).collect());
    let policies = lines(set.policies().map(Policy::to_string).collect());
    let expected = format!("Templates:\n{bodies}, Template Linked Policies:\n{policies}");
    assert_eq!(set.to_string(), expected);
}

#[test]
fn random_bodies_are_returned_unchanged() {
    let dice = &mut random::Dice::new(9);
    let (mut linked, mut failed, mut statics) = (0, 0, 0);
    for _ in 0..3000 {
        let body = random::template(dice, &id("t"));
        let mut set = set_of(&body);
        assert_stored(&set, &body);
        let values = random::bindings(dice, &body);
        match link_and_compare(&mut set, &body, values) {
            true => linked += 1,
            false => failed += 1,
        }
        // the slots without a binding are reported in a fixed order
        let unbound = &mut set_of(&body);
        assert_eq!(
            link_and_compare(unbound, &body, SlotEnv::new()),
            body.is_static()
        );
        if let Ok(policy) = StaticPolicy::try_from(body.new_id(id("s"))) {
            set.add(policy.clone().into()).unwrap();
            assert_eq!(set.bound("s").unwrap(), Some(Bound::Static));
            assert_eq!(set.policy_text("s").unwrap(), policy.to_string());
            assert_stored(&set, &template_of(policy));
            statics += 1;
        }
        let mut other = PolicySet::new();
        other.bind_static("t", Effect::Permit).unwrap();
        let renaming = other.merge_policyset(&set, true).unwrap();
        assert_eq!(renaming.get(&id("t")), Some(&id("policy0")));
        assert_stored(&other, &body.new_id(id("policy0")));
        assert_text(&set);
        assert_text(&other);
    }
    assert!(
        linked > 800 && failed > 800 && statics > 50,
        "{linked} {failed} {statics}"
    );
}

// Two bodies are equal exactly if the library reports sets of them as equal.
#[test]
fn bodies_are_equal_if_sets_of_them_are() {
    let dice = &mut random::Dice::new(10);
    let mut parts = Vec::new();
    for _ in 0..200 {
        let constraint = Constraint::Eq(EntityReference::from_uid(random::uid(dice)));
        let action = random::action_constraint(dice);
        let body = template_with("t", random::constraint(dice), action, constraint, None);
        let set = set_of(&body);
        parts.push((body, set));
    }
    let mut equal = 0;
    for (first, first_set) in &parts {
        for (second, second_set) in &parts {
            assert_eq!(
                first == second,
                first_set == second_set,
                "{first} and {second}"
            );
            equal += usize::from(first == second);
        }
    }
    assert!(equal > 200, "{equal}");
    let hashed: HashSet<&Template> = parts.iter().map(|(body, _)| body).collect();
    let distinct_texts: HashSet<String> = parts.iter().map(|(body, _)| body.to_string()).collect();
    assert_eq!(hashed.len(), distinct_texts.len());
}

// Returns an expression with this number of levels.
fn levels(count: usize) -> Expr {
    (1..count).fold(Expr::val(true), |operand, _| Expr::not(operand))
}

#[test]
fn a_clause_with_too_many_levels_is_an_error() {
    let body = with_clause("t", Some(levels(1000)));
    let mut set = set_of(&body);
    let before = set.clone();
    let body = with_clause("u", Some(levels(1001)));
    let policy = StaticPolicy::try_from(body.clone()).unwrap();
    assert_error(set.add_template(body.clone()), Reason::TooDeep, "too deep");
    assert_error(set.add_static(policy.clone()), Reason::TooDeep, "too deep");
    assert_error(set.add(policy.into()), Reason::TooDeep, "too deep");
    let link = Template::link(Arc::new(body), id("l"), SlotEnv::new()).unwrap();
    assert_error(set.add(link), Reason::TooDeep, "too deep");
    assert_eq!(set, before);
    assert!(set.get_template(&id("u")).is_none());
    assert_stored(&set, &with_clause("t", Some(levels(1000))));
}

fn hash_of(body: &Template) -> u64 {
    let mut hasher = DefaultHasher::new();
    body.hash(&mut hasher);
    hasher.finish()
}

// Runs on a thread with a small stack, which recursion of this depth would overflow.
#[test]
fn a_clause_of_any_depth_is_possible_outside_a_set() {
    const HOSTILE: usize = 200_000;
    let test = || {
        let body = || with_clause("t", Some(levels(HOSTILE)));
        let other = with_clause("t", Some(levels(HOSTILE + 1)));
        assert!(body() == body() && body() != other);
        assert_eq!(hash_of(&body()), hash_of(&body()));
        let text_len = body().to_string().len();
        assert!(text_len > HOSTILE && format!("{:?}", body()).len() > HOSTILE);
        assert!(body().condition().slots().is_empty());
        let policy = StaticPolicy::try_from(body().try_validate().unwrap()).unwrap();
        assert_error(
            PolicySet::new().add_static(policy),
            Reason::TooDeep,
            "too deep",
        );
    };
    let thread = std::thread::Builder::new().stack_size(128 * 1024);
    thread.spawn(test).unwrap().join().unwrap();
}

#[test]
fn a_failed_link_adds_no_template() {
    let mut set = short::set(&["permit s", "template t p"]);
    let before = set.clone();
    let body = Arc::new(template_with(
        "u",
        Constraint::is_eq_slot(),
        ActionConstraint::any(),
        Constraint::any(),
        None,
    ));
    for name in ["s", "t", "u"] {
        let link = Template::link(body.clone(), id(name), short::bindings_of("p")).unwrap();
        let error = set.add(link).unwrap_err();
        assert_eq!(error, PolicySetError::Occupied { id: id(name) });
        assert!(set == before && set.get_template(body.id()).is_none());
    }
    let link = Template::link(body.clone(), id("l"), short::bindings_of("p")).unwrap();
    set.add(link.clone()).unwrap();
    assert_stored(&set, &body);
    assert_eq!(set.get(&id("l")), Some(&link));
    assert_eq!(set.clone().get(&id("l")), Some(&link));
    assert_eq!(set.linked("u").unwrap(), ["l"]);
}

#[test]
fn sets_return_no_locations() {
    let loc = Some(cedar_store_proved::parser::Loc::new(1, 2, "a text".into()));
    let clause = Expr::slot(SlotId::principal()).with_maybe_source_loc(loc.clone());
    let reference = EntityReference::Slot(loc.clone());
    let body = Template::new(
        id("t"),
        loc.clone(),
        Annotations::new(),
        Effect::Forbid,
        PrincipalConstraint::new(Constraint::In(reference)),
        ActionConstraint::EqSlot(loc.clone()),
        ResourceConstraint::any(),
        Some(clause),
    );
    assert!(body.slots().all(|slot| slot.loc == loc));
    assert!(body.slots().map(|slot| slot.id).eq([
        SlotId::Principal,
        SlotId::Action,
        SlotId::Principal
    ]));
    assert_eq!(
        (body.loc(), body.condition().source_loc()),
        (loc.as_ref(), loc.as_ref())
    );
    let mut set = set_of(&body);
    let stored = set.get_template(&id("t")).unwrap();
    assert!(stored == &body && stored.loc().is_none());
    assert!(stored.slots().eq(body.slots()) && stored.slots().all(|slot| slot.loc.is_none()));
    let (ty, eid) = parse_uid("Action::\"x\"").components();
    let located_uid = EntityUID::from_components(ty, eid, loc);
    let mut bound = short::bindings_of("p");
    bound.insert(SlotId::action(), located_uid);
    assert!(bound[&SlotId::action()].loc().is_some());
    let link = set.link("t", "l", bound).unwrap();
    assert!(link.env().values().all(|uid| uid.loc().is_none()));
}

#[test]
fn policies_have_the_same_queries_without_a_set() {
    let (a, ty) = (
        parse_uid("A::\"a\""),
        EntityType::from_normalized_str("A").unwrap(),
    );
    let unknown = |name: &str, ty: Option<&EntityType>| {
        Expr::unknown(match ty {
            Some(ty) => Unknown::new_with_type(name, StaticType::Entity { ty: ty.clone() }),
            None => Unknown::new_untyped(name),
        })
    };
    let clause = Expr::set([
        unknown("A::\"a\"", Some(&ty)),
        unknown("A::\"b\"", None),
        unknown("no uid", Some(&ty)),
    ]);
    let policy = Policy::from_when_clause(Effect::Permit, clause, id("p"), None);
    assert_eq!(policy.unknown_entities(), HashSet::from([a.clone()]));
    let mut set = PolicySet::singleton(policy.clone());
    assert_eq!(set.unknown_entities("p").unwrap(), [a.clone()]);
    set.bind_template("t", Effect::Permit, Slots::none())
        .unwrap();
    let error = set.unknown_entities("t").unwrap_err();
    assert_eq!(error.reason(), Reason::NoBody);
    let renamed = policy.new_id(id("q"));
    assert_eq!(
        (renamed.id(), renamed.template().id()),
        (&id("q"), &id("q"))
    );
    assert!(renamed.clone().new_template_id(id("t")).is_none());
    let body = template_with(
        "t",
        Constraint::is_eq_slot(),
        ActionConstraint::any(),
        Constraint::any(),
        None,
    );
    let link = Template::link(Arc::new(body), id("l"), short::bindings_of("p")).unwrap();
    let renamed = link.new_id(id("m"));
    assert_eq!(
        (renamed.id(), renamed.template().id()),
        (&id("m"), &id("t"))
    );
    assert!(Arc::ptr_eq(renamed.template_arc(), link.template_arc()));
    let relinked = renamed.new_template_id(id("u")).unwrap();
    assert_eq!(
        (relinked.id(), relinked.template().id()),
        (&id("m"), &id("u"))
    );
    assert_eq!(relinked.env(), link.env());
    let typed = Constraint::is_entity_type_in(Arc::new(ty), Arc::new(parse_uid("G::\"g\"")));
    let names: Vec<String> = typed
        .iter_entity_type_names()
        .map(ToString::to_string)
        .collect();
    assert_eq!(names, ["G", "A"]);
    assert_eq!(
        PrincipalOrResource::try_from(Var::Context),
        Err(Var::Context)
    );
}

// Asserts that the items are in ascending order.
fn assert_ascending<T: Ord + std::fmt::Debug>(items: &[T]) {
    for (place, item) in items.iter().enumerate() {
        for (other_place, other) in items.iter().enumerate() {
            assert_eq!(
                item.cmp(other),
                place.cmp(&other_place),
                "{item:?} and {other:?}"
            );
            assert_eq!(item == other, place == other_place);
        }
    }
}

#[test]
fn constraints_have_a_total_order() {
    let uid = |text: &str| EntityReference::from_uid(parse_uid(text));
    let slot = || EntityReference::Slot(None);
    let ty = |text: &str| Arc::new(EntityType::from_normalized_str(text).unwrap());
    assert_ascending(&[
        Constraint::Any,
        Constraint::In(uid("A::\"a\"")),
        Constraint::In(uid("A::\"b\"")),
        Constraint::In(uid("B::\"a\"")),
        Constraint::In(slot()),
        Constraint::Eq(uid("A::\"a\"")),
        Constraint::Eq(slot()),
        Constraint::Is(ty("A")),
        Constraint::Is(ty("B")),
        Constraint::IsIn(ty("A"), uid("B::\"b\"")),
        Constraint::IsIn(ty("A"), slot()),
        Constraint::IsIn(ty("B"), uid("A::\"a\"")),
    ]);
    let (go, stop) = (parse_uid("Action::\"go\""), parse_uid("Action::\"stop\""));
    assert_ascending(&[
        ActionConstraint::any(),
        ActionConstraint::is_in([]),
        ActionConstraint::is_in([go.clone()]),
        ActionConstraint::is_in([go.clone(), stop.clone()]),
        ActionConstraint::is_in([stop.clone()]),
        ActionConstraint::is_eq(go),
        ActionConstraint::is_eq(stop),
        ActionConstraint::is_in_slot(),
        ActionConstraint::is_eq_slot(),
    ]);
    let loc = Some(cedar_store_proved::parser::Loc::new(0, 1, "a".into()));
    assert_eq!(EntityReference::Slot(loc.clone()), slot());
    assert_eq!(
        ActionConstraint::InSlot(loc),
        ActionConstraint::is_in_slot()
    );
}

#[test]
fn validation_reports_each_fault() {
    let call = |name: &str| Expr::call(Name::from_normalized_str(name).unwrap(), vec![]);
    let error_text = |clause| {
        with_clause("t", Some(clause))
            .try_validate()
            .unwrap_err()
            .to_string()
    };
    assert_eq!(
        error_text(Expr::and(call("f"), call("g"))),
        "`g` is not a known function"
    );
    let slots = Expr::and(Expr::slot(SlotId::action()), Expr::slot(SlotId::resource()));
    assert_eq!(
        error_text(slots),
        "found slot `?resource` in a condition clause"
    );
    let known_calls = ["ip", "decimal", "datetime", "duration"].map(call);
    assert!(Expr::set(known_calls).try_validate().is_ok());
    let mixed = ActionConstraint::is_in(["A::\"a\"", "Action::\"b\"", "A::\"c\""].map(parse_uid));
    let message = "the action constraint holds uids that are not actions: A::\"a\",A::\"c\"";
    let error = mixed.clone().contains_only_action_types().unwrap_err();
    assert_eq!(error.to_string(), message);
    let mut set = set_of(&template_with(
        "t",
        Constraint::any(),
        mixed,
        Constraint::any(),
        None,
    ));
    let error_of = |set: &PolicySet| {
        let error = set.validate().unwrap_err();
        assert!(error.uids().is_empty());
        (error.reason(), error.to_string())
    };
    let expected = |reason, text: &str| (reason, text.to_string());
    assert_eq!(
        error_of(&set),
        expected(Reason::NotActions, "uid of no action in t")
    );
    let error = set.clone().try_validate().unwrap_err();
    assert_eq!(
        error.to_string(),
        format!("invalid template `t`: {message}")
    );
    set.bind_template("u", Effect::Permit, Slots::none())
        .unwrap();
    set.link("u", "l", SlotEnv::new()).unwrap();
    let text = "link without slots l";
    assert_eq!(error_of(&set), expected(Reason::SlotlessLink, text));
    let error = set.try_validate().unwrap_err();
    assert_eq!(
        error.to_string(),
        "link `l` references template `u` which has no slots"
    );
    let set = set_of(&with_clause("s", Some(Expr::slot(SlotId::resource()))));
    let text = "slot in the clause of s";
    assert_eq!(error_of(&set), expected(Reason::SlotInClause, text));
    let set = set_of(&with_clause("f", Some(call("f"))));
    let text = "unknown function in f";
    assert_eq!(error_of(&set), expected(Reason::UnknownFunction, text));
    assert!(set_of(&with_clause("g", Some(call("ip"))))
        .validate()
        .is_ok());
}
