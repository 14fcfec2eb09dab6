//! Stores: absent parents that are added and removed, copies that do not change, shared entities, lookups, non-ASCII
//! texts, and the fault that is reported for several invalid entities.
mod common;

use cedar_store::ast::{Entity, EntityUID, Expr, PartialValue, StaticType, Value};
use cedar_store::entities::{Dereference, Entities, EntitiesError, TCComputation};
use cedar_store::{have_no_indirect, would_add, would_upsert};
use common::{entity_under, shared, uid};
use std::collections::HashSet;
use std::sync::Arc;

fn node(number: usize) -> EntityUID {
    uid(&format!("N::\"{number}\""))
}

fn entity_with_parents(number: usize, parents: &[usize]) -> Entity {
    entity_under(node(number), parents.iter().copied().map(node))
}

fn closed_store(entities: impl IntoIterator<Item = Entity>) -> Entities {
    Entities::from_entities(entities, TCComputation::ComputeNow).expect("the call succeeds")
}

/// Returns the number of entities, and the total number of their ancestors.
fn counts(store: &Entities) -> (usize, usize) {
    (store.len(), store.iter().map(|entity| entity.ancestors().count()).sum())
}

fn add_entity(store: Entities, number: usize, parents: &[usize]) -> Entities {
    store
        .add_entities(
            [Arc::new(entity_with_parents(number, parents))],
            TCComputation::ComputeNow,
        )
        .expect("the call succeeds")
}

fn remove_uids(store: Entities, numbers: &[usize]) -> Entities {
    store
        .remove_entities(numbers.iter().map(|number| node(*number)), TCComputation::ComputeNow)
        .expect("a removal never fails")
}

#[test]
fn dry_run_changes_nothing_and_returns_the_error_of_the_edit() {
    let store = closed_store([
        entity_with_parents(1, &[2]),
        entity_with_parents(2, &[3]),
        entity_with_parents(3, &[]),
    ]);
    let before = store.clone();
    let list = |number: usize, parents: &[usize]| [Arc::new(entity_with_parents(number, parents))];
    let now = TCComputation::ComputeNow;
    // a new entity, an equal one, one that differs from the stored one, and one that closes a cycle
    for (number, parents, adds, upserts) in [
        (9, &[1][..], true, true),
        (1, &[2, 3], true, true),
        (1, &[3], false, true),
        (3, &[1], false, false),
        (9, &[9], false, false),
    ] {
        let list = list(number, parents);
        assert!(have_no_indirect(&list));
        let (add, upsert) = (would_add(&store, &list), would_upsert(&store, &list));
        assert_eq!((add.is_ok(), upsert.is_ok()), (adds, upserts), "{number} {parents:?}");
        let added = store.clone().add_entities(list.clone(), now);
        let upserted = store.clone().upsert_entities(list, now);
        assert_eq!(add.map_err(kind_of).err(), added.map_err(kind_of).err());
        assert_eq!(upsert.map_err(kind_of).err(), upserted.map_err(kind_of).err());
    }
    assert!(store.deep_eq(&before));
    let mut closed = entity_with_parents(4, &[1]);
    closed.add_indirect_ancestor(node(2));
    assert!(!have_no_indirect(&[
        Arc::new(entity_with_parents(5, &[])),
        Arc::new(closed)
    ]));
}

/// The kind of an error: a duplicate, with its uid, or a cycle.
fn kind_of(error: EntitiesError) -> Option<EntityUID> {
    match error {
        EntitiesError::Duplicate(uid) => Some(uid),
        EntitiesError::TransitiveClosureError(_) => None,
        other => panic!("{other}"),
    }
}

#[test]
fn absent_parent_is_added_removed_and_added_again() {
    let store = closed_store((0..100).map(|number| entity_with_parents(number, &[900])));
    assert_eq!(counts(&store), (100, 100));
    assert_eq!(counts(&remove_uids(store.clone(), &[900])), (100, 100));
    let store = add_entity(store, 900, &[901]);
    assert_eq!(counts(&store), (101, 201));
    assert_eq!(counts(&remove_uids(store.clone(), &[901])), (101, 201));
    let store = remove_uids(store, &[900]);
    assert_eq!(counts(&store), (100, 0));
    assert_eq!(counts(&add_entity(store, 900, &[901])), (101, 1));
}

#[test]
fn removal_list_with_repeated_and_absent_uids() {
    let chain = || {
        closed_store((0..10).map(|number| {
            if number < 9 {
                entity_with_parents(number, &[number + 1])
            } else {
                entity_with_parents(9, &[])
            }
        }))
    };
    assert_eq!(counts(&remove_uids(chain(), &[3, 3, 99, 5, 3])), (8, 9));
    assert_eq!(counts(&remove_uids(chain(), &[99, 98, 99])), (10, 45));
    assert!(remove_uids(chain(), &[3, 3, 99, 5, 3]).deep_eq(&remove_uids(remove_uids(chain(), &[5]), &[3])));
    assert!(!remove_uids(chain(), &[3, 5]).deep_eq(&remove_uids(chain(), &[3])));
}

#[test]
fn assumed_closure_is_unchanged_where_unaffected() {
    let assumed = || {
        Entities::from_entities(
            [entity_with_parents(1, &[2]), entity_with_parents(2, &[3])],
            TCComputation::AssumeAlreadyComputed,
        )
        .unwrap()
    };
    assert_eq!(counts(&assumed()), (2, 2));
    assert_eq!(counts(&add_entity(assumed(), 5, &[6])), (3, 3));
    assert!(remove_uids(add_entity(assumed(), 5, &[1]), &[5]).deep_eq(&assumed()));
    assert!(!assumed().deep_eq(&closed_store([
        entity_with_parents(1, &[2]),
        entity_with_parents(2, &[3])
    ])));
}

#[test]
fn copies_and_shared_entities_are_unchanged() {
    let store = closed_store([entity_with_parents(1, &[2]), entity_with_parents(2, &[3])]);
    let copy = store.clone();
    assert!(copy.deep_eq(&store) && copy == store);
    let changed = remove_uids(store, &[2]);
    assert!(!copy.deep_eq(&changed));
    assert_eq!((counts(&copy), counts(&changed)), ((2, 3), (1, 0)));
    // iterating over a store by value gives the same entities even if a copy shares them
    let entities: Vec<Entity> = copy.clone().into_iter().collect();
    let rebuilt = Entities::from_entities(entities, TCComputation::AssumeAlreadyComputed).unwrap();
    assert!(rebuilt.deep_eq(&copy));
    let outside = shared(entity_with_parents(1, &[2]));
    let store = closed_store([entity_with_parents(2, &[3])])
        .add_entities([outside.clone()], TCComputation::ComputeNow)
        .unwrap();
    assert_eq!(counts(&store), (2, 3));
    assert_eq!(outside.ancestors().count(), 1);
}

#[test]
fn lookup_returns_the_entity_or_an_unknown_of_its_type() {
    let store = closed_store([entity_with_parents(1, &[2])]);
    match store.entity(&node(1)) {
        found @ Dereference::Data(_) => {
            assert_eq!(found.clone().unwrap().uid(), &node(1));
            assert_eq!(found.expect("it was found").uid(), &node(1));
        }
        _ => panic!("it is present"),
    }
    assert!(matches!(store.entity(&node(2)), Dereference::NoSuchEntity));
    let partial = store.partial();
    match partial.entity(&uid("T::\"é\"")) {
        Dereference::Residual(expr) => {
            assert_eq!(expr.to_string(), r#"unknown("T::\"é\"")"#);
            let unknowns: Vec<_> = expr.unknowns().into_iter().collect();
            match unknowns.as_slice() {
                [unknown] => match &unknown.type_annotation {
                    Some(StaticType::Entity { ty }) => assert_eq!(ty.to_string(), "T"),
                    other => panic!("{other:?}"),
                },
                _ => panic!("one unknown"),
            }
        }
        _ => panic!("it is absent"),
    }
}

fn with_fields(name: &str, attrs: &[(&str, PartialValue)], parents: &[&str]) -> Entity {
    let attrs: Vec<(String, PartialValue)> = attrs
        .iter()
        .map(|(key, value)| ((*key).into(), value.clone()))
        .collect();
    let parents = parents.iter().map(|parent| uid(parent)).collect();
    Entity::new_with_attr_partial_value(uid(name), attrs, HashSet::new(), parents, [])
}

#[test]
fn non_ascii_texts() {
    let long = |number: i64| PartialValue::from(Value::from(number));
    let store = closed_store([
        with_fields("A::\"é\"", &[("ñ", long(-1)), ("a", long(2))], &["A::\"ß\""]),
        with_fields("A::\"e\"", &[], &["A::\"é\""]),
    ]);
    assert_eq!(
        store.to_string(),
        "A::\"e\":\n  attrs:\n  ancestors:A::\"ß\", A::\"é\"\nA::\"é\":\n  attrs:a: 2; ñ: -1\n  ancestors:A::\"ß\"\n"
    );
    // uids are ordered by the last identifier of their types first
    let names = ["A::B::\"x\"", "B::A::\"x\"", "A::\"y\"", "A::A::\"z\"", "A::\"x\""];
    let text = closed_store(names.map(|name| Entity::with_uid(uid(name)))).to_string();
    let uid_lines: Vec<_> = text.lines().filter(|line| !line.starts_with(' ')).collect();
    assert_eq!(
        uid_lines,
        ["A::\"x\":", "A::\"y\":", "A::A::\"z\":", "B::A::\"x\":", "A::B::\"x\":"]
    );
    let negation = PartialValue::Residual(Expr::not(Expr::val(uid("A::\"é\""))));
    let entity = with_fields(
        "A::\"a\"",
        &[("z", long(-5)), ("naïve \"é\"", long(7)), ("a", negation)],
        &[],
    );
    assert_eq!(
        entity.to_string(),
        "A::\"a\":\n  attrs:a: !A::\"é\"; naïve \"é\": 7; z: -5\n  ancestors:"
    );
    let (store, other) = (
        closed_store([Entity::with_uid(uid("A::\"é\""))]),
        shared(with_fields("A::\"é\"", &[("k", long(1))], &[])),
    );
    let error = store.add_entities([other], TCComputation::ComputeNow).unwrap_err();
    assert_eq!(error.to_string(), "duplicate entity `A::\"é\"`");
}

fn record(keys: &[&str], inner: Value) -> Value {
    Value::record(keys.iter().map(|key| (*key, inner.clone())), None)
}

/// The first reserved key is reported. Entities are checked in the order of uids, attributes before tags and in the
/// order of keys, and a key before its value.
#[test]
fn first_reserved_key_is_reported() {
    let reserved_key = |error: EntitiesError| match error {
        EntitiesError::ReservedKey(key) => key,
        other => panic!("{other}"),
    };
    let one = || Value::from(1);
    let entity_with_key =
        |name: &str, key: &str| with_fields(name, &[("k", PartialValue::from(record(&[key], one())))], &[]);
    let store = closed_store([
        entity_with_key("A::\"c\"", "__entity"),
        entity_with_key("A::\"b\"", "__extn"),
        entity_with_key("A::\"a\"", "fine"),
    ]);
    assert_eq!(reserved_key(store.try_validate().unwrap_err()), "__extn");
    let attrs = |pairs: &[(&str, Value)], tags: &[(&str, Value)]| {
        let owned = |pairs: &[(&str, Value)]| -> Vec<(String, PartialValue)> {
            pairs
                .iter()
                .map(|(key, value)| ((*key).into(), PartialValue::from(value.clone())))
                .collect()
        };
        let none = HashSet::new;
        Entity::new_with_attr_partial_value(uid("T::\"a\""), owned(pairs), none(), none(), owned(tags)).validate()
    };
    let nested = record(&["__expr"], record(&["__entity"], one()));
    assert_eq!(reserved_key(attrs(&[], &[("t", nested)]).unwrap_err()), "__expr");
    let attr_and_tag = attrs(
        &[("z", record(&["__extn"], one()))],
        &[("a", record(&["__entity"], one()))],
    );
    assert_eq!(reserved_key(attr_and_tag.unwrap_err()), "__extn");
    // a value is checked before the next key
    let inner = record(&["__extn"], one());
    let value_before_key = Value::record([("A", inner), ("__expr", one())], None);
    assert_eq!(
        reserved_key(attrs(&[], &[("t", value_before_key)]).unwrap_err()),
        "__extn"
    );
    let nested_in_sets = Value::set([Value::set([record(&["__entity"], one())], None)], None);
    assert_eq!(
        reserved_key(attrs(&[], &[("t", nested_in_sets)]).unwrap_err()),
        "__entity"
    );
    assert!(
        attrs(
            &[("__extn", Value::from("__extn"))],
            &[("__entity", record(&["__extn_"], one()))]
        )
        .is_ok()
    );
}
