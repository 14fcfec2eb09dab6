//! Variables, slots, types, unknowns and reserved keys. Also the locations of values and expressions, which copies keep
//! and comparisons ignore.
mod common;

use cedar_store::ast::{
    Eid, EntityType, EntityUID, Expr, Literal, PartialValue, Slot, SlotId, StaticType, StaticallyTyped, Unknown, Value,
    ValueKind, Var, is_reserved_key,
};
use cedar_store::parser::Loc;
use common::uid;
use std::collections::hash_map::DefaultHasher;
use std::fmt::Debug;
use std::hash::{Hash, Hasher};

fn at(start: usize) -> Option<Loc> {
    Some(Loc::new(start, start + 1, "a text of some length".into()))
}

fn start(loc: Option<&Loc>) -> Option<usize> {
    loc.map(|loc| loc.start)
}

fn hash_of<T: Hash>(value: &T) -> u64 {
    let mut hasher = DefaultHasher::new();
    value.hash(&mut hasher);
    hasher.finish()
}

/// Asserts that both are equal and have the same hash.
fn assert_equal_with_hash<T: PartialEq + Hash + Debug>(one: &T, other: &T) {
    assert_eq!((one, hash_of(one)), (other, hash_of(other)));
}

#[test]
fn variables_slots_and_reserved_keys() {
    let vars = [Var::Principal, Var::Action, Var::Resource, Var::Context];
    for (n, text) in ["principal", "action", "resource", "context"].iter().enumerate() {
        assert_eq!(vars[n].to_string(), *text);
        for (m, other) in vars.iter().enumerate() {
            assert_eq!(
                (vars[n] == *other, hash_of(&vars[n]) == hash_of(other)),
                (n == m, n == m)
            );
        }
    }
    let slots = [SlotId::principal(), SlotId::action(), SlotId::resource()];
    for (n, text) in ["?principal", "?action", "?resource"].iter().enumerate() {
        assert_eq!(slots[n].to_string(), *text);
        let located = Slot {
            id: slots[n],
            loc: at(3),
        };
        assert_equal_with_hash(
            &located,
            &Slot {
                id: slots[n],
                loc: None,
            },
        );
        assert_eq!(start(located.clone().loc.as_ref()), Some(3));
        for (m, other) in slots.iter().enumerate() {
            assert_eq!((slots[n].cmp(other), slots[n] == *other), (n.cmp(&m), n == m));
            assert_eq!(located == Slot { id: *other, loc: None }, n == m);
        }
    }
    for key in ["__extn", "__expr", "__entity"] {
        assert!(is_reserved_key(key), "{key}");
    }
    for key in ["", "extn", "__ext", "__extn_", "__Expr", "ordinary", "é"] {
        assert!(!is_reserved_key(key), "{key}");
    }
}

fn ty(text: &str) -> EntityType {
    EntityType::from_normalized_str(text).unwrap()
}

fn typed(name: &str, text: &str) -> Unknown {
    Unknown::new_with_type(name, StaticType::Entity { ty: ty(text) })
}

#[test]
fn types_and_unknowns() {
    let static_type = uid(r#"Foo::Album::"x""#).type_of();
    assert_equal_with_hash(&static_type, &StaticType::Entity { ty: ty("Foo::Album") });
    assert_ne!(static_type, StaticType::Entity { ty: ty("Album") });
    assert_equal_with_hash(&static_type.clone(), &static_type);
    assert!(Unknown::new_untyped("a").type_annotation.is_none());
    let all = [
        Unknown::new_untyped("a"),
        Unknown::new_untyped("b"),
        typed("a", "A"),
        typed("a", "B"),
    ];
    for (n, one) in all.iter().enumerate() {
        assert_equal_with_hash(&one.clone(), one);
        for (m, other) in all.iter().enumerate() {
            assert_eq!(one == other, n == m);
        }
    }
    for (unknown, text) in [
        (Unknown::new_untyped("it's"), r#"unknown("it\'s")"#),
        (typed("a", "B"), r#"unknown("a")"#),
        (Unknown::new_untyped("é"), r#"unknown("é")"#),
    ] {
        assert_eq!(unknown.to_string(), text);
    }
}

fn one_at(start: usize) -> Value {
    Value::new(ValueKind::Lit(Literal::Long(1)), at(start))
}

#[test]
fn values_keep_their_locations() {
    assert_eq!(start(one_at(4).clone().loc.as_ref()), Some(4));
    let set = Value::set([one_at(1)], at(2));
    assert_eq!(start(set.loc.as_ref()), Some(2));
    let record = Value::record([("k", one_at(1))], at(5));
    assert_eq!(start(record.loc.as_ref()), Some(5));
    let first = |record: &Value| match &record.value {
        ValueKind::Record(fields) => start(fields.values().next().and_then(|value| value.loc.as_ref())),
        _ => None,
    };
    // if a key is repeated, the last value is used
    let repeated_key = Value::record([("k", one_at(3)), ("k", one_at(4))], None);
    assert_eq!(
        (first(&record), first(&repeated_key), first(&repeated_key.clone())),
        (Some(1), Some(4), Some(4))
    );
    let plain = Value::set([Value::from(1)], None);
    assert_equal_with_hash(&set, &plain);
    assert_equal_with_hash(&record, &Value::record([("k", Value::from(1))], None));
    assert!(set.cmp(&plain).is_eq() && set.value == plain.value);
}

#[test]
fn partial_values() {
    let known = || PartialValue::from(Value::set([Value::from(2), Value::from(1)], None));
    let residual = |number: i64| PartialValue::Residual(Expr::not(Expr::val(number)));
    assert_eq!(
        (known().to_string(), residual(7).to_string()),
        ("[1, 2]".into(), "!7".into())
    );
    assert_equal_with_hash(&known(), &known().clone());
    assert_equal_with_hash(&residual(1), &residual(1).clone());
    assert!(known() != residual(1) && residual(2) != residual(1) && residual(2) != known());
    let location_of = |value: &PartialValue| match value {
        PartialValue::Value(value) => start(value.loc.as_ref()),
        PartialValue::Residual(expr) => start(expr.source_loc()),
    };
    assert_eq!(location_of(&PartialValue::from(one_at(6)).clone()), Some(6));
    assert_eq!(location_of(&PartialValue::Residual(located_expr()).clone()), Some(3));
}

/// Returns `?principal == 1`, in which each node has its own location.
fn located_expr() -> Expr {
    let slot = Expr::slot(SlotId::principal()).with_maybe_source_loc(at(1));
    let one = Expr::val(1).with_maybe_source_loc(at(2));
    Expr::is_eq(slot, one).with_maybe_source_loc(at(3))
}

#[test]
fn expressions_keep_their_locations() {
    let plain = Expr::is_eq(Expr::slot(SlotId::principal()), Expr::val(1));
    assert_equal_with_hash(&located_expr(), &plain);
    assert_eq!(located_expr().to_string(), "?principal == 1");
    assert!(Expr::val(true).source_loc().is_none());
    assert_eq!(start(located_expr().clone().source_loc()), Some(3));
    assert!(located_expr().with_maybe_source_loc(None).source_loc().is_none());
    let nodes: Vec<_> = located_expr()
        .subexpressions()
        .into_iter()
        .map(|node| start(node.source_loc()))
        .collect();
    assert_eq!(nodes, [Some(3), Some(2), Some(1)]);
    let slot = |expr: &Expr| {
        expr.slots()
            .into_iter()
            .map(|slot| slot.loc.map(|loc| loc.start))
            .collect::<Vec<_>>()
    };
    assert_eq!((slot(&located_expr()), slot(&plain)), (vec![Some(1)], vec![None]));
}

#[test]
fn types_keep_their_locations() {
    let type_at = |start: usize| ty("A").with_loc(at(start).as_ref());
    let of = |static_type: &StaticType| match static_type {
        StaticType::Entity { ty } => start(ty.loc()),
    };
    let located = EntityUID::from_components(type_at(3), Eid::new("a"), None);
    assert_eq!(of(&located.type_of()), Some(3));
    let unknown = Unknown::new_with_type("x", StaticType::Entity { ty: type_at(4) }).clone();
    assert_eq!(unknown.type_annotation.as_ref().and_then(of), Some(4));
    // the output of the derived `Debug` contains each location
    let derived = |start: usize| format!("{:?}", Expr::is_entity_type(Expr::val(true), type_at(start)).clone());
    assert_eq!(
        derived(4),
        format!("{:?}", Expr::is_entity_type(Expr::val(true), type_at(4)))
    );
    assert_ne!(derived(4), derived(5));
}
