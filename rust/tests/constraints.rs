//! Constraints on principals, resources and actions in all of their forms, references, and annotations: their texts,
//! their expressions, their order, and the locations of their slots.
mod common;

use cedar_store::ast::{
    ActionConstraint, Annotation, Annotations, AnyId, EntityReference, EntityType, EntityUID, Expr, Literal,
    PrincipalConstraint, PrincipalOrResource, PrincipalOrResourceConstraint, ResourceConstraint, SlotId, Var,
};
use cedar_store::parser::Loc;
use common::{shared, uid};
use std::collections::BTreeMap;
use std::collections::hash_map::DefaultHasher;
use std::fmt::Debug;
use std::hash::{Hash, Hasher};
use std::sync::Arc;

type Constraint = PrincipalOrResourceConstraint;

fn at(start: usize) -> Option<Loc> {
    Some(Loc::new(
        start,
        start + 1,
        "permit(principal, action, resource);".into(),
    ))
}

fn ty(text: &str) -> Arc<EntityType> {
    shared(EntityType::from_normalized_str(text).unwrap())
}

fn group() -> Arc<EntityUID> {
    shared(uid(r#"A::"g""#))
}

fn hash_of<T: Hash>(thing: &T) -> u64 {
    let mut hasher = DefaultHasher::new();
    thing.hash(&mut hasher);
    hasher.finish()
}

/// Asserts that the items are in ascending order, and that each is equal only to its copy and has the same hash.
fn assert_ascending<T: Ord + Hash + Clone + Debug>(items: &[T]) {
    for (i, one) in items.iter().enumerate() {
        assert_eq!((one, hash_of(one)), (&one.clone(), hash_of(&one.clone())));
        for (j, other) in items.iter().enumerate() {
            assert_eq!((one.cmp(other), one == other), (i.cmp(&j), i == j), "{one:?} {other:?}");
        }
    }
}

/// Defines functions that return the eight forms in order, each by its constructor.
macro_rules! all_forms {
    ($($name:ident: $type:ident;)*) => {
        $(fn $name() -> [$type; 8] {
            [
                $type::any(),
                $type::is_in(group()),
                $type::is_in_slot(),
                $type::is_eq(group()),
                $type::is_eq_slot(),
                $type::is_entity_type(ty("T")),
                $type::is_entity_type_in(ty("T"), group()),
                $type::is_entity_type_in_slot(ty("T")),
            ]
        })*
    };
}
all_forms! {
    all_constraints: Constraint;
    all_on_principal: PrincipalConstraint;
    all_on_resource: ResourceConstraint;
}

/// For each form: its text for a variable V, its expression, and its text after the slot was replaced by `B::"u"`.
const FORMS: [(&str, &str, &str); 8] = [
    ("V", "true", "V"),
    (r#"V in A::"g""#, r#"V in A::"g""#, r#"V in A::"g""#),
    ("V in ?V", "V in ?V", r#"V in B::"u""#),
    (r#"V == A::"g""#, r#"V == A::"g""#, r#"V == A::"g""#),
    ("V == ?V", "V == ?V", r#"V == B::"u""#),
    ("V is T", "V is T", "V is T"),
    (
        r#"V is T in A::"g""#,
        r#"(V is T) && (V in A::"g")"#,
        r#"V is T in A::"g""#,
    ),
    ("V is T in ?V", "(V is T) && (V in ?V)", r#"V is T in B::"u""#),
];

#[test]
fn display_and_expressions_of_constraints() {
    let (principal, resource) = (PrincipalOrResource::Principal, PrincipalOrResource::Resource);
    for (n, (text, expr, filled)) in FORMS.iter().enumerate() {
        let on = |variable: &str, text: &str| text.replace('V', variable);
        let (plain, first, second) = (
            &all_constraints()[n],
            all_on_principal()[n].clone(),
            all_on_resource()[n].clone(),
        );
        assert_eq!((first.as_inner(), second.as_inner()), (plain, plain));
        assert_eq!(
            (plain.display(principal), plain.display(resource)),
            (on("principal", text), on("resource", text))
        );
        assert_eq!(
            (first.to_string(), second.to_string()),
            (on("principal", text), on("resource", text))
        );
        assert_eq!(first.as_expr().to_string(), on("principal", expr));
        assert_eq!(second.as_expr().to_string(), on("resource", expr));
        assert_eq!(
            (first.as_expr(), second.as_expr()),
            (plain.as_expr(principal), plain.as_expr(resource))
        );
        let (u, v) = (shared(uid(r#"B::"u""#)), shared(uid(r#"C::"v""#)));
        let (first, second) = (first.with_filled_slot(u.clone()), second.with_filled_slot(u));
        assert_eq!(
            (first.to_string(), second.to_string()),
            (on("principal", filled), on("resource", filled))
        );
        // a second call changes nothing
        assert_eq!(first.clone().with_filled_slot(v.clone()), first);
        assert_eq!(second.clone().with_filled_slot(v), second);
        assert_eq!(PrincipalConstraint::new(plain.clone()).into_inner(), *plain);
        assert_eq!(ResourceConstraint::new(plain.clone()).into_inner(), *plain);
    }
    let qualified = Constraint::is_entity_type_in(ty("N::T"), shared(uid(r#"A::B::"é""#)));
    assert_eq!(qualified.display(resource), r#"resource is N::T in A::B::"é""#);
    let escaped = Constraint::is_entity_type_in(ty("T"), shared(uid(r#"A::"it\'s\n""#)));
    assert_eq!(escaped.display(principal), r#"principal is T in A::"it\'s\n""#);
}

#[test]
fn order_uids_and_types_of_constraints() {
    assert_ascending(&all_constraints());
    assert_ascending(&all_on_principal());
    assert_ascending(&all_on_resource());
    let typed = |type_name: &str, text: &str| Constraint::is_entity_type_in(ty(type_name), shared(uid(text)));
    assert!(typed("S", r#"Z::"z""#) < typed("T", r#"A::"a""#));
    assert!(typed("T", r#"A::"a""#) < typed("T", r#"A::"b""#));
    let types: [&[&str]; 8] = [&[], &["A"], &[], &["A"], &[], &["T"], &["A", "T"], &["T"]];
    for (constraint, types) in all_constraints().iter().zip(types) {
        let type_names: Vec<_> = constraint.iter_entity_type_names().map(ToString::to_string).collect();
        assert_eq!(type_names, types, "{constraint:?}");
        assert_eq!(constraint.get_euid().is_some(), types.contains(&"A"));
    }
}

#[test]
fn references_and_variables() {
    let (p, r) = (SlotId::principal(), SlotId::resource());
    let slot = |start: Option<Loc>| EntityReference::Slot(start);
    let reference = |text: &str| EntityReference::euid(shared(uid(text)));
    assert_eq!(
        (slot(None).into_expr(p), slot(None).into_expr(r)),
        (Expr::slot(p), Expr::slot(r))
    );
    assert_eq!(
        reference(r#"A::"é""#).into_expr(p),
        Expr::val(Literal::EntityUID(shared(uid(r#"A::"é""#))))
    );
    assert_eq!(
        EntityReference::from_uid(uid(r#"N::T::"x""#)),
        reference(r#"N::T::"x""#)
    );
    assert_ascending(&[
        reference(r#"A::"y""#),
        reference(r#"A::"z""#),
        reference(r#"Z::"a""#),
        slot(None),
    ]);
    // locations do not affect comparisons, and each is kept
    assert_eq!(slot(at(3)), slot(at(1)));
    assert_eq!(
        (slot(at(3)).cmp(&slot(None)), hash_of(&slot(at(3)))),
        (std::cmp::Ordering::Equal, hash_of(&slot(None)))
    );
    assert_eq!(slot(at(5)).clone().into_expr(r).source_loc(), at(5).as_ref());
    assert!(
        slot(None).into_expr(p).source_loc().is_none() && reference(r#"A::"a""#).into_expr(p).source_loc().is_none()
    );
    let typed = ty("T").with_loc(at(7).as_ref());
    assert_eq!(Constraint::Is(shared(typed)), Constraint::is_entity_type(ty("T")));
    for constraint in [
        Constraint::Eq(slot(at(6))),
        Constraint::In(slot(at(6))),
        Constraint::IsIn(ty("T"), slot(at(6))),
    ] {
        let inner = PrincipalConstraint::new(constraint.clone()).clone().into_inner();
        let slots = inner.as_expr(PrincipalOrResource::Principal).slots();
        let starts: Vec<_> = slots.into_iter().map(|slot| slot.loc.map(|loc| loc.start)).collect();
        assert_eq!(starts, [Some(6)]);
    }
    let (principal, resource) = (PrincipalOrResource::Principal, PrincipalOrResource::Resource);
    assert_eq!(
        (principal.to_string(), resource.to_string()),
        ("principal".into(), "resource".into())
    );
    assert_eq!(PrincipalOrResource::try_from(Var::Principal), Ok(principal));
    assert_eq!(PrincipalOrResource::try_from(Var::Resource), Ok(resource));
    assert_eq!(PrincipalOrResource::try_from(Var::Action), Err(Var::Action));
    assert_eq!(PrincipalOrResource::try_from(Var::Context), Err(Var::Context));
    assert_eq!(
        (Var::from(principal), Var::from(resource)),
        (Var::Principal, Var::Resource)
    );
    assert_eq!((SlotId::from(principal), SlotId::from(resource)), (p, r));
}

fn actions_in(texts: &[&str]) -> ActionConstraint {
    ActionConstraint::is_in(texts.iter().map(|text| uid(text)))
}

/// Returns constraints on actions in order. The slots of the last two have locations.
fn all_actions(in_slot: Option<Loc>, eq_slot: Option<Loc>) -> [ActionConstraint; 9] {
    let (a, b) = (r#"Action::"a""#, r#"Action::"b""#);
    [
        ActionConstraint::any(),
        actions_in(&[]),
        actions_in(&[a]),
        actions_in(&[a, a]),
        actions_in(&[b]),
        ActionConstraint::is_eq(uid(a)),
        ActionConstraint::Eq(shared(uid(b))),
        ActionConstraint::InSlot(in_slot),
        ActionConstraint::EqSlot(eq_slot),
    ]
}

/// For each constraint: its text, its expression, and its text after the slot was replaced by `B::"u"`.
const ACTIONS: [(&str, &str, &str); 9] = [
    ("action", "true", "action"),
    ("action in []", "action in []", "action in []"),
    (
        r#"action in [Action::"a"]"#,
        r#"action in [Action::"a"]"#,
        r#"action in [Action::"a"]"#,
    ),
    (
        r#"action in [Action::"a",Action::"a"]"#,
        r#"action in [Action::"a", Action::"a"]"#,
        r#"action in [Action::"a",Action::"a"]"#,
    ),
    (
        r#"action in [Action::"b"]"#,
        r#"action in [Action::"b"]"#,
        r#"action in [Action::"b"]"#,
    ),
    (
        r#"action == Action::"a""#,
        r#"action == Action::"a""#,
        r#"action == Action::"a""#,
    ),
    (
        r#"action == Action::"b""#,
        r#"action == Action::"b""#,
        r#"action == Action::"b""#,
    ),
    ("action in ?action", "action in ?action", r#"action in [B::"u"]"#),
    ("action == ?action", "action == ?action", r#"action == B::"u""#),
];

#[test]
fn action_constraints() {
    let (plain, located) = (all_actions(None, None), all_actions(at(5), at(4)));
    assert_ascending(&plain);
    assert_ascending(&located);
    assert_eq!(
        (&plain[7], &plain[8]),
        (&ActionConstraint::is_in_slot(), &ActionConstraint::is_eq_slot())
    );
    for (n, (text, expr, filled)) in ACTIONS.iter().enumerate() {
        assert_eq!((&plain[n], hash_of(&plain[n])), (&located[n], hash_of(&located[n])));
        assert_eq!(
            (plain[n].to_string().as_str(), located[n].to_string().as_str()),
            (*text, *text)
        );
        assert_eq!(plain[n].as_expr().to_string(), *expr);
        let filled_once = located[n].clone().with_filled_slot(shared(uid(r#"B::"u""#)));
        assert_eq!(filled_once.to_string(), *filled);
        assert_eq!(
            filled_once.clone().with_filled_slot(shared(uid(r#"C::"v""#))),
            filled_once
        );
    }
    for (n, start) in [(7, 5), (8, 4)] {
        let slots = located[n].clone().as_expr().slots();
        let slot_locations: Vec<_> = slots
            .into_iter()
            .map(|slot| (slot.id, slot.loc.map(|loc| loc.start)))
            .collect();
        assert_eq!(slot_locations, [(SlotId::action(), Some(start))]);
    }
    let non_ascii = actions_in(&[r#"Action::"é""#, r#"Action::"\"""#]);
    assert_eq!(non_ascii.to_string(), r#"action in [Action::"é",Action::"\""]"#);
    assert_eq!(
        actions_in(&[r#"Action::"c""#, r#"Action::"a""#, r#"Action::"b""#]).to_string(),
        r#"action in [Action::"c",Action::"a",Action::"b"]"#
    );
    // uids and types are iterated from the end of the list, with duplicates
    let texts = |constraint: &ActionConstraint| constraint.iter_euids().map(ToString::to_string).collect::<Vec<_>>();
    assert_eq!(
        texts(&actions_in(&[r#"A::"a""#, r#"B::"b""#])),
        [r#"B::"b""#, r#"A::"a""#]
    );
    let types = |constraint: &ActionConstraint| {
        constraint
            .iter_entity_type_names()
            .map(ToString::to_string)
            .collect::<Vec<_>>()
    };
    assert_eq!(types(&actions_in(&[r#"A::"a""#, r#"B::"b""#])), ["B", "A"]);
    assert_eq!(types(&actions_in(&[r#"A::"a""#, r#"A::"b""#])), ["A", "A"]);
    assert_eq!(types(&ActionConstraint::is_eq(uid(r#"N::Action::"a""#))), ["N::Action"]);
    for n in [0, 1, 7, 8] {
        assert!(texts(&plain[n]).is_empty() && types(&plain[n]).is_empty());
    }
}

#[test]
fn errors_list_non_action_uids_in_order() {
    let error_text =
        |constraint: ActionConstraint| constraint.check_action_types().err().map(|error| error.to_string());
    let expected = |uids: &str| Some(format!("the action constraint holds uids that are not actions: {uids}"));
    let mixed = || actions_in(&[r#"Action::"v""#, r#"User::"x""#, r#"T::"y""#]);
    assert_eq!(error_text(mixed()), expected(r#"User::"x",T::"y""#));
    assert_eq!(
        error_text(actions_in(&[r#"T::"y""#, r#"Action::"v""#, r#"T::"y""#])),
        expected(r#"T::"y",T::"y""#)
    );
    assert_eq!(
        error_text(ActionConstraint::is_eq(uid(r#"Action::T::"y""#))),
        expected(r#"Action::T::"y""#)
    );
    assert_eq!(
        mixed().contains_only_action_types().unwrap_err().to_string(),
        expected(r#"User::"x",T::"y""#).unwrap()
    );
    let passing = [
        ActionConstraint::Any,
        actions_in(&[]),
        ActionConstraint::is_eq(uid(r#"N::Action::"v""#)),
        actions_in(&[r#"Action::"v""#, r#"A::B::Action::"w""#]),
        ActionConstraint::InSlot(at(3)),
        ActionConstraint::EqSlot(at(3)),
    ];
    for constraint in passing {
        assert!(constraint.check_action_types().is_ok());
        assert_eq!(constraint.clone().contains_only_action_types().unwrap(), constraint);
    }
}

fn key(text: &str) -> AnyId {
    AnyId::from_normalized_str(text).unwrap()
}

fn annotation(val: &str, loc: Option<Loc>) -> Annotation {
    Annotation { val: val.into(), loc }
}

fn annotations(pairs: &[(&str, &str)]) -> Annotations {
    Annotations::try_from_iter(pairs.iter().map(|(name, val)| (key(name), annotation(val, None))))
}

#[test]
fn annotation_order_and_display() {
    let with_value = Annotation::with_optional_value(Some("v".into()), at(3));
    assert_eq!((with_value.as_ref(), with_value.clone().loc), ("v", at(3)));
    let without_value = Annotation::with_optional_value(None, at(2));
    assert_eq!(
        (without_value.as_ref(), without_value.loc.as_ref()),
        ("", at(2).as_ref())
    );
    assert_eq!(
        (annotation("v", at(2)), hash_of(&annotation("v", at(2)))),
        (annotation("v", None), hash_of(&annotation("v", None)))
    );
    assert_ascending(&[
        annotation("", None),
        annotation("a", None),
        annotation("aa", None),
        annotation("b", None),
        annotation("é", None),
    ]);
    for (val, text) in [("", r#""""#), ("x\"y", r#""x\"y""#), ("é\t", r#""é\t""#)] {
        assert_eq!(annotation(val, None).to_string(), text);
    }
    // if a key is repeated, the last annotation is used; annotations are ordered by their keys
    let all = annotations(&[("k", "1"), ("j", "2"), ("k", "3")]);
    assert_eq!(all.get(&key("k")).map(AsRef::as_ref), Some("3"));
    assert_eq!(all.get(&key("j")).map(AsRef::as_ref), Some("2"));
    assert!(all.get(&key("i")).is_none() && !all.is_empty() && Annotations::new().is_empty());
    let all = annotations(&[("b", "1"), ("a", "2"), ("ab", "3"), ("B", "4")]);
    let names = ["B", "a", "ab", "b"];
    assert_eq!(all.iter().map(|(name, _)| name.as_ref()).collect::<Vec<_>>(), names);
    assert_eq!(
        all.into_iter().map(|(name, _)| name.to_string()).collect::<Vec<_>>(),
        names
    );
    assert_eq!(annotations(&[]).to_string(), "");
    assert_eq!(annotations(&[("if", "x\"y")]).to_string(), "@if(\"x\\\"y\")\n");
    assert_eq!(
        annotations(&[("b", "1"), ("a", "é")]).to_string(),
        "@a(\"é\")\n@b(\"1\")\n"
    );
    assert_eq!(
        Annotations::from(BTreeMap::from([(key("k"), annotation("v", None))])),
        annotations(&[("k", "v")])
    );
    assert_ascending(&[
        annotations(&[]),
        annotations(&[("a", "1")]),
        annotations(&[("a", "1"), ("b", "0")]),
        annotations(&[("a", "2")]),
        annotations(&[("b", "1")]),
    ]);
}
