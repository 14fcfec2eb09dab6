//! Large inputs: deep expressions and values, sets with many policies, and stores with many entities.
mod common;
#[path = "common/policies.rs"]
mod policies;

use cedar_store::ast::{
    ActionConstraint, Annotations, Effect, Entity, EntityUID, Expr, PartialValue, PolicyID, PolicySet,
    PrincipalConstraint, ResourceConstraint, SlotId, Template, Value,
};
use cedar_store::entities::{Dereference, Entities, EntitiesError, TCComputation};
use cedar_store::slice;
use common::{entity_under, id, principal};
use policies::{permit, principal_template};
use std::collections::HashSet;
use std::collections::hash_map::DefaultHasher;
use std::hash::{Hash, Hasher};
use std::thread;

const LEVELS: usize = 10_000;

/// Runs a test with a large stack, because printing, comparing, hashing and dropping a tree recurse.
fn with_large_stack(test: fn()) {
    thread::Builder::new()
        .stack_size(1 << 28)
        .spawn(test)
        .expect("a thread")
        .join()
        .expect("the test succeeds");
}

fn hash_of<T: Hash>(value: &T) -> u64 {
    let mut hasher = DefaultHasher::new();
    value.hash(&mut hasher);
    hasher.finish()
}

fn deep_expr(inner: Expr) -> Expr {
    (0..LEVELS).fold(inner, |expr, level| match level % 3 {
        0 => Expr::not(expr),
        1 => Expr::and(Expr::val(true), expr),
        _ => Expr::set([expr, Expr::val(1)]),
    })
}

fn deep_value(inner: Value) -> Value {
    (0..LEVELS).fold(inner, |value, level| match level % 2 {
        0 => Value::set([value], None),
        _ => Value::record([("k", value)], None),
    })
}

#[test]
fn deep_expressions() {
    with_large_stack(|| {
        let (one, other) = (deep_expr(Expr::slot(SlotId::principal())), deep_expr(Expr::val(2)));
        assert_eq!(one, one.clone());
        assert_ne!(one, other);
        assert_eq!(hash_of(&one), hash_of(&one.clone()));
        assert_eq!(one.slots().len(), 1);
        assert!(other.slots().is_empty() && other.try_validate().is_ok());
        assert!(one.to_string().len() > 3 * LEVELS);
        assert_eq!(one.to_string(), one.clone().to_string());
    });
}

#[test]
fn deep_values() {
    with_large_stack(|| {
        let (one, other) = (deep_value(Value::from(1)), deep_value(Value::from(2)));
        assert_eq!(one, one.clone());
        assert!(one < other && hash_of(&one) == hash_of(&one.clone()));
        assert!(one.to_string().len() > 3 * LEVELS);
        let entity_with = |value: Value| {
            Entity::new_with_attr_partial_value(
                common::with_eid("a"),
                [("k".to_string(), PartialValue::from(value))],
                HashSet::new(),
                HashSet::new(),
                [],
            )
        };
        assert!(entity_with(one).validate().is_ok());
        let reserved = deep_value(Value::record([("__extn", Value::from(true))], None));
        assert!(matches!(entity_with(reserved).validate(), Err(EntitiesError::ReservedKey(key)) if key == "__extn"));
    });
}

#[test]
fn template_with_a_deep_clause() {
    with_large_stack(|| {
        let template = Template::new(
            id("t"),
            None,
            Annotations::new(),
            Effect::Permit,
            PrincipalConstraint::is_eq_slot(),
            ActionConstraint::any(),
            ResourceConstraint::any(),
            Some(deep_expr(Expr::val(1))),
        );
        let mut set = PolicySet::new();
        set.add_template(template.clone()).unwrap();
        let link = set
            .link(id("t"), id("l"), principal(common::with_eid("x")))
            .expect("the slot is bound");
        assert_eq!(link.template(), &template);
        assert!(link.unknown_entities().is_empty());
        assert!(link.condition().to_string().len() > 3 * LEVELS);
        assert!(set.try_validate().is_ok());
    });
}

#[test]
fn large_policy_set() {
    let name = |number: usize| PolicyID::from_string(format!("policy{number}"));
    let mut set = PolicySet::new();
    set.add_template(principal_template("t")).unwrap();
    for number in 0..30_000 {
        set.add_static(permit(name(number).as_ref(), None)).unwrap();
        set.link(
            id("t"),
            PolicyID::from_string(format!("link{number}")),
            principal(common::with_eid("x")),
        )
        .unwrap();
    }
    assert_eq!(
        (
            set.policies().count(),
            set.get_linked_policies(&id("t")).unwrap().count()
        ),
        (60_000, 30_000)
    );
    for number in (0..30_000).step_by(3) {
        set.unlink(&PolicyID::from_string(format!("link{number}"))).unwrap();
    }
    assert_eq!(set.get_linked_policies(&id("t")).unwrap().count(), 20_000);
    // all static policies conflict: each gets the next name that neither set has
    let mut other = PolicySet::new();
    for number in 0..30_000 {
        other
            .add_static(permit(name(number).as_ref(), Some(Expr::val(false))))
            .unwrap();
    }
    let renaming = set.merge_policyset(&other, true).expect("conflicting ids are renamed");
    for (number, (old, new)) in renaming.iter().enumerate() {
        assert_eq!((old, new), (&name(number), &name(30_000 + number)));
    }
    assert_eq!(renaming.len(), 30_000);
}

fn node(number: usize) -> EntityUID {
    EntityUID::with_eid_and_type("Node", &number.to_string()).unwrap()
}

fn entity_with_parents(number: usize, parents: &[usize]) -> Entity {
    entity_under(node(number), parents.iter().copied().map(node))
}

/// The cost of an error for a cycle is linear in the input. The cost of a check of a closed chain is linear in its
/// ancestors. The cost of a slice is linear in its result, even if uids are repeated. Otherwise the test would take
/// minutes or gigabytes.
#[test]
fn cycles_checks_and_repeated_uids_have_linear_cost() {
    let cycle = (0..100_000).map(|number| entity_with_parents(number, &[(number + 1) % 100_000]));
    assert!(Entities::from_entities(cycle, TCComputation::ComputeNow).is_err());
    let chain = (0..2_000).map(|number| entity_with_parents(number, &[number + 1]));
    let store = Entities::from_entities(chain, TCComputation::ComputeNow).unwrap();
    let store = store.try_validate().expect("it is closed");
    let rebuilt = Entities::from_entities(store.iter().cloned(), TCComputation::EnforceAlreadyComputed).unwrap();
    assert!(rebuilt.deep_eq(&store));
    let requested = vec![node(0); 100_000];
    assert_eq!(slice(&store, &requested).len(), 2_000);
    let mut entities: Vec<&Entity> = store.iter().collect();
    entities.sort_by(|one, other| one.uid().cmp(other.uid()));
    let text: String = entities.iter().map(|entity| format!("{entity}\n")).collect();
    assert!(store.to_string() == text);
}

#[test]
fn large_stores() {
    let chain = (0..1_000).map(|number| entity_with_parents(number, &[number + 1]));
    let store = Entities::from_entities(chain, TCComputation::ComputeNow).unwrap();
    assert_eq!(
        store.iter().map(|entity| entity.ancestors().count()).sum::<usize>(),
        1_000 * 1_001 / 2
    );
    let tree = (0..100_000).map(|number| {
        if number == 0 {
            entity_with_parents(0, &[])
        } else {
            entity_with_parents(number, &[(number - 1) / 8])
        }
    });
    let store = Entities::from_entities(tree, TCComputation::ComputeNow).unwrap();
    let Dereference::Data(leaf) = store.entity(&node(99_999)) else {
        panic!("it is present")
    };
    assert!(leaf.is_descendant_of(&node(0)) && leaf.ancestors().count() == 6);
    // a hub with many children is removed, and the edges to it
    let hub = (0..50_000)
        .map(|number| entity_with_parents(number + 1, &[0]))
        .chain([entity_with_parents(0, &[])]);
    let store = Entities::from_entities(hub, TCComputation::ComputeNow).unwrap();
    let store = store.remove_entities([node(0)], TCComputation::ComputeNow).unwrap();
    assert!(store.iter().all(|entity| entity.ancestors().next().is_none()));
}
