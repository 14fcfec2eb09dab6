//! Tests of values and expressions: their content and their texts, and that they do not change when they are passed to
//! the library and read back.
mod random;
mod short;
use cedar_store_proved::ast::{
    Entity, EntityType, Expr, ExprNode, ExtensionValue, Literal, Name, PartialValue, SlotId,
    StaticType, StaticallyTyped, Unknown, Value, ValueKind, Var,
};
use cedar_store_proved::entities::{Entities, EntitiesError};
use cedar_store_proved::Reason;
use random::Dice;
use short::*;
use std::collections::HashSet;
use std::hash::{DefaultHasher, Hash, Hasher};

fn extension(func: &str, arg: &str) -> Value {
    let func = Name::from_normalized_str(func).unwrap();
    Value::from(ExtensionValue {
        func,
        arg: arg.into(),
    })
}

fn set(values: impl IntoIterator<Item = Value>) -> Value {
    Value::set(values, None)
}

fn record<const N: usize>(pairs: [(&str, Value); N]) -> Value {
    Value::record(pairs, None)
}

// Returns the value of an attribute after it was passed to the library and read back. Asserts that a tag gives the same
// value.
fn round_trip(term: impl Into<PartialValue>) -> PartialValue {
    let term = term.into();
    let entity = Entity::with_uid(uid("a")).with_attr("k", term.clone());
    let store = Entities::from_entities([entity.with_tag("t", term)], NOW).unwrap();
    let returned = store.get(uid("a"), "k").unwrap().unwrap();
    assert_eq!(
        store.get_tag(uid("a"), "t").unwrap(),
        Some(returned.clone())
    );
    let stored = store.entity(&uid("a")).unwrap();
    assert_eq!((stored.get("k"), stored.get("t")), (Some(&returned), None));
    assert_eq!(stored.get_tag("t"), Some(&returned));
    returned
}

#[test]
fn values_of_each_kind() {
    let user = EntityType::from_normalized_str("User").unwrap();
    for (value, text) in [
        (Value::from(true), "true"),
        (Value::from(false), "false"),
        (Value::from(i64::MIN), "-9223372036854775808"),
        (Value::from(i64::MAX), "9223372036854775807"),
        (Value::from(""), "\"\""),
        (Value::from("it's é\n"), "\"it\\'s é\\n\""),
        (Value::from(uid("a")), "A::\"a\""),
        (set([]), "[]"),
        (record([]), "{}"),
        (set([2, 1, 2].map(Value::from)), "[1, 2]"),
        (
            set([Value::from("1"), Value::from(1), Value::from(true)]),
            "[true, 1, \"1\"]",
        ),
        (
            record([("b", Value::from(1)), ("a", set([])), ("b", Value::from(2))]),
            "{\"a\": [], \"b\": 2}",
        ),
        (extension("ip", "10.0.0.1"), "ip(\"10.0.0.1\")"),
        (extension("N::decimal", "1.5"), "N::decimal(\"1.5\")"),
        (
            set([
                extension("f", ""),
                record([]),
                set([]),
                Value::from(uid("a")),
            ]),
            "[A::\"a\", [], {}, f(\"\")]",
        ),
    ] {
        assert_eq!(value.to_string(), text);
        assert_eq!(round_trip(value.clone()), PartialValue::from(value));
    }
    assert_eq!(uid("a").type_of(), Entity::with_uid(uid("b")).type_of());
    let ty = StaticType::Entity { ty: user };
    assert_ne!(uid("a").type_of(), ty);
}

#[test]
fn expressions_of_each_kind() {
    let principal = || Expr::var(Var::Principal);
    let name = |text| Name::from_normalized_str(text).unwrap();
    let ty = EntityType::from_normalized_str("A::B").unwrap();
    let typed = Unknown::new_with_type("x", StaticType::Entity { ty: ty.clone() });
    for (expr, text) in [
        (Expr::val("x"), "\"x\""),
        (Expr::from(1), "1"),
        (
            Expr::unknown(Unknown::new_untyped("it's")),
            "unknown(\"it\\'s\")",
        ),
        (Expr::unknown(typed), "unknown(\"x\")"),
        (Expr::set([]), "[]"),
        (
            Expr::set([Expr::val(2), Expr::val(1), Expr::val(1)]),
            "[2, 1, 1]",
        ),
        (Expr::call(name("g"), vec![]), "g()"),
        (
            Expr::call(name("N::g"), vec![Expr::val(1), principal()]),
            "N::g(1, principal)",
        ),
        (
            Expr::is_eq(principal(), Expr::var(Var::Action)),
            "principal == action",
        ),
        (
            Expr::is_in(Expr::var(Var::Resource), Expr::val(uid("a"))),
            "resource in A::\"a\"",
        ),
        (Expr::not(Expr::var(Var::Context)), "!context"),
        (Expr::not(Expr::not(Expr::val(true))), "!(!true)"),
        (
            Expr::and(
                Expr::slot(SlotId::principal()),
                Expr::slot(SlotId::action()),
            ),
            "?principal && ?action",
        ),
        (Expr::is_entity_type(principal(), ty), "principal is A::B"),
    ] {
        assert_eq!(expr.to_string(), text);
        assert_eq!(round_trip(expr.clone()), PartialValue::Residual(expr));
    }
    // a residual expression is not equal to a value, even if it has the same content
    assert_ne!(round_trip(Expr::val(1)), round_trip(Value::from(1)));
}

#[test]
fn subexpressions_slots_and_unknowns_are_listed() {
    let (slot, unknown) = (SlotId::resource(), Unknown::new_untyped("u"));
    let expr = Expr::and(
        Expr::set([Expr::slot(slot), Expr::unknown(unknown.clone())]),
        Expr::not(Expr::slot(slot)),
    );
    let texts: Vec<String> = expr
        .subexpressions()
        .iter()
        .map(|e| e.to_string())
        .collect();
    let expected = [
        "[?resource, unknown(\"u\")] && (!?resource)",
        "!?resource",
        "?resource",
        "[?resource, unknown(\"u\")]",
        "unknown(\"u\")",
        "?resource",
    ];
    assert_eq!(texts, expected);
    assert_eq!(
        expr.slots().iter().map(|s| s.id).collect::<Vec<_>>(),
        [slot, slot]
    );
    assert_eq!(expr.unknowns(), [&unknown]);
    assert!(
        matches!(expr.node(), ExprNode::And(left, _) if matches!(left.node(), ExprNode::Set([_, _])))
    );
}

#[test]
fn different_values_are_not_equal() {
    let values = [
        Value::from(true),
        Value::from(1),
        Value::from("A::\"a\""),
        Value::from(uid("a")),
        set([]),
        set([Value::from(1)]),
        set([Value::from(1), Value::from(2)]),
        set([set([])]),
        record([]),
        record([("a", Value::from(1))]),
        record([("a", Value::from(2))]),
        record([("b", Value::from(1))]),
        record([("a", Value::from(1)), ("b", Value::from(1))]),
        extension("f", ""),
        extension("f", "a"),
        extension("g", ""),
    ];
    assert_eq!(
        values.iter().cloned().collect::<HashSet<_>>().len(),
        values.len()
    );
    for (place, value) in values.iter().enumerate() {
        for (other_place, other) in values.iter().enumerate() {
            assert_eq!(value == other, place == other_place, "{value} {other}");
            assert_eq!(
                value.cmp(other),
                other.cmp(value).reverse(),
                "{value} {other}"
            );
        }
    }
    assert!(
        matches!(&values[3].value, ValueKind::Lit(Literal::EntityUID(entity_uid)) if **entity_uid == uid("a"))
    );
}

fn hash_of(item: &impl Hash) -> u64 {
    let mut hasher = DefaultHasher::new();
    item.hash(&mut hasher);
    hasher.finish()
}

#[test]
fn random_values_are_returned_unchanged() {
    let dice = &mut Dice::new(1);
    let (mut equal, mut before) = (0, Value::from(1));
    for _ in 0..3000 {
        let value = random::value(dice, 4);
        let PartialValue::Value(returned) = round_trip(value.clone()) else {
            panic!("the library returns a value");
        };
        assert_eq!((&returned, hash_of(&returned)), (&value, hash_of(&value)));
        assert_eq!(
            (returned.to_string(), returned.cmp(&before)),
            (value.to_string(), value.cmp(&before))
        );
        equal += usize::from(value == before);
        assert_eq!(value == before, value.to_string() == before.to_string());
        before = value;
    }
    assert!((10..1500).contains(&equal), "{equal}");
}

#[test]
fn random_expressions_are_returned_unchanged() {
    let dice = &mut Dice::new(2);
    for _ in 0..3000 {
        let (expr, other) = (random::expr(dice, 4), random::expr(dice, 4));
        let PartialValue::Residual(returned) = round_trip(expr.clone()) else {
            panic!("the library returns an expression");
        };
        assert_eq!((&returned, hash_of(&returned)), (&expr, hash_of(&expr)));
        assert_eq!(
            (returned.to_string(), returned == other),
            (expr.to_string(), expr == other)
        );
    }
}

// ---- depth

const WRAPS: [fn(Value) -> Value; 2] = [|value| set([value]), |value| record([("k", value)])];

fn deep(levels: usize, wrap: fn(Value) -> Value) -> Value {
    (1..levels).fold(Value::from(7), |value, _| wrap(value))
}

fn deep_expr(levels: usize) -> Expr {
    let wrap = |expr, place| match place % 3 {
        0 => Expr::not(expr),
        1 => Expr::set([expr]),
        _ => Expr::and(Expr::val(true), expr),
    };
    (1..levels).fold(Expr::var(Var::Principal), wrap)
}

#[test]
fn at_most_a_thousand_levels_are_accepted() {
    let terms = |levels| WRAPS.map(|wrap| PartialValue::from(deep(levels, wrap)));
    for term in terms(1000)
        .into_iter()
        .chain([PartialValue::from(deep_expr(1000))])
    {
        assert_eq!(round_trip(term.clone()), term);
    }
    let mut entities = store("q");
    for term in terms(1001)
        .into_iter()
        .chain([PartialValue::from(deep_expr(1001))])
    {
        let entity = Entity::with_uid(uid("a")).with_tag("k", term);
        assert_error(entities.add([&entity], NOW), Reason::TooDeep, "too deep");
        assert_error(entities.upsert([&entity], NOW), Reason::TooDeep, "too deep");
        assert_error(
            entities.clone().add_entities([&entity], NOW),
            Reason::TooDeep,
            "too deep",
        );
        assert_error(entity.validate(), Reason::TooDeep, "too deep");
        match Entities::from_entities([entity], NOW) {
            Err(EntitiesError::Other(error)) => assert_eq!(error.reason(), Reason::TooDeep),
            other => panic!("{other:?}"),
        }
        // an error leaves the store unchanged
        assert_eq!(short::entity_names(&entities, "aq"), "q");
    }
}

// Runs a test on a thread with a small stack, which deep recursion would overflow.
fn with_small_stack(test: fn()) {
    let thread = std::thread::Builder::new().stack_size(128 * 1024);
    thread.spawn(test).unwrap().join().unwrap();
}

const HOSTILE: usize = 200_000;

#[test]
fn values_of_any_depth_are_possible_outside_a_store() {
    with_small_stack(|| {
        for wrap in WRAPS {
            let (value, equal) = (deep(HOSTILE, wrap), deep(HOSTILE, wrap));
            let other = wrap(value.clone());
            assert!(value == equal && value != other && value < other);
            assert_eq!(hash_of(&value), hash_of(&equal));
            assert!(
                value.to_string().len() >= 2 * HOSTILE - 1 && format!("{value:?}").len() > HOSTILE
            );
            let pair = set([value.clone(), equal, other.clone()]);
            assert!(matches!(&pair.value, ValueKind::Set(elements) if elements.len() == 2));
            let entity = Entity::with_uid(uid("a")).with_attr("k", pair);
            assert_error(entity.validate(), Reason::TooDeep, "too deep");
            drop((value, other));
        }
    });
}

#[test]
fn expressions_of_any_depth_are_possible_outside_a_store() {
    with_small_stack(|| {
        let (expr, equal) = (deep_expr(HOSTILE), deep_expr(HOSTILE));
        assert!(expr == equal && expr != Expr::not(expr.clone()));
        assert_eq!(hash_of(&expr), hash_of(&equal));
        assert!(expr.to_string().len() > HOSTILE && expr.subexpressions().len() > HOSTILE);
        let entity = Entity::with_uid(uid("a")).with_attr("k", expr);
        assert_error(entity.validate(), Reason::TooDeep, "too deep");
    });
}

#[test]
fn shared_values_are_freed_once() {
    with_small_stack(|| {
        let inner = deep(HOSTILE, WRAPS[0]);
        let outer = (0..1000).fold(inner.clone(), |value, _| {
            set([value.clone(), record([("k", value)])])
        });
        let shared = outer.clone();
        drop(outer);
        assert!(shared == shared.clone());
        drop(shared);
        assert_eq!(inner, deep(HOSTILE, WRAPS[0]));
    });
}
