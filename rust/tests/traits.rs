//! The traits of the standard library: texts, conversions, accessors of values, and collections.
use cedar_store::ast::{
    Annotation, Annotations, AnyId, Effect, Eid, Entity, EntityType, EntityUID, Expr, Id, Literal, Name, PartialValue,
    Policy, PolicyID, PolicySet, Slot, SlotId, TemplateValidationError, Value,
};
use cedar_store::entities::{Entities, EntitiesError, TCComputation};
use cedar_store::parser::err::{Expected, ParseErrors};
use cedar_store::transitive_closure::{HasCycle, MissingTcEdge, TcError};
use std::borrow::Borrow;
use std::collections::{BTreeMap, BTreeSet, HashMap};
use std::fmt::Debug;
use std::hash::{BuildHasher, Hash, RandomState};
use std::str::FromStr;
use std::sync::Arc;

fn policy(name: &str) -> Policy {
    Policy::from_when_clause(Effect::Permit, Expr::val(true), name.into(), None)
}

/// Checks that exactly the printed form of a value is read as the value.
fn assert_reads<T: FromStr<Err = ParseErrors> + ToString + PartialEq + Debug>(text: &str, others: &[&str]) {
    let value: T = text.parse().unwrap_or_else(|error| panic!("{text}: {error}"));
    assert_eq!(value.to_string(), text);
    for other in others {
        assert!(other.parse::<T>().is_err(), "{other}");
    }
}

#[test]
fn texts_are_read_in_their_printed_form_only() {
    assert_reads::<EntityUID>(
        r#"N::T::"it\'s""#,
        &[
            "",
            "a",
            r#"T::"a"b"#,
            r#"N :: T::"a""#,
            r#"T::"it's""#,
            r#"if::"a""#,
            r#" T::"a""#,
        ],
    );
    assert_reads::<EntityType>("N::T", &["", "N:T", "N::", "N:: T", "in"]);
    assert_reads::<Name>("a::b::c", &["", "::a", "a::b::", "a b", "a::true"]);
    assert_reads::<Id>("_a1", &["", "1a", "a-b", "é", "else", "a ", "a::b"]);
    assert_reads::<AnyId>("else", &["", "1a", "a-b", "é", "a ", "a::b"]);
}

/// Checks that a key compares and hashes as its text does, so that a map finds it by the text.
fn assert_borrows<K: Borrow<str> + AsRef<str> + Hash + Ord + for<'a> From<&'a str> + From<String>>(texts: &[&str]) {
    let state = RandomState::new();
    for text in texts {
        let key = K::from(*text);
        assert!(key.borrow() as &str == *text && key.as_ref() == *text);
        assert_eq!(state.hash_one(&key), state.hash_one(*text));
        assert!(key == K::from(text.to_string()));
        for other in texts {
            assert_eq!(key.cmp(&K::from(*other)), text.cmp(other));
        }
    }
}

#[test]
fn ids_are_borrowed_as_texts() {
    let texts = ["", "a", "b", "ab", "it's", "é", "policy0"];
    assert_borrows::<PolicyID>(&texts);
    assert_borrows::<Eid>(&texts);
    let numbers: HashMap<Eid, usize> = texts
        .iter()
        .enumerate()
        .map(|(n, text)| (Eid::from(*text), n))
        .collect();
    assert_eq!(numbers.get("it's"), Some(&4));
    assert_eq!(Eid::from("it's").to_string(), r"it\'s");
    assert_eq!(PolicyID::from("it's").to_string(), r"it\'s");
}

#[test]
fn values_from_rust_and_back() {
    let alice: EntityUID = r#"User::"alice""#.parse().expect("a uid");
    assert_eq!(Value::from(true).as_bool(), Some(true));
    assert_eq!(
        (
            Value::from(7).as_long(),
            Value::from(7u32).as_long(),
            Value::from(i64::MIN).as_long()
        ),
        (Some(7), Some(7), Some(i64::MIN))
    );
    assert_eq!(
        (Value::from("a").as_str(), Value::from("a".to_string()).as_str()),
        (Some("a"), Some("a"))
    );
    assert_eq!(Value::from(Arc::new(alice.clone())).as_entity(), Some(&alice));
    let ones = vec![Value::from(1), Value::from("b"), Value::from(1)];
    let set = Value::from(ones.clone());
    assert_eq!(set, Value::from(BTreeSet::from_iter(ones)));
    assert_eq!(set.as_set().map(<[Value]>::len), Some(2));
    let fields = BTreeMap::from([("a".to_string(), Value::from(1)), ("b".to_string(), set.clone())]);
    let record = Value::from(fields.clone());
    assert_eq!(record, Value::record([("b", set.clone()), ("a", 1.into())], None));
    assert_eq!(record.as_record(), Some(&fields));
    for value in [&set, &record] {
        assert!(value.as_bool().is_none() && value.as_long().is_none());
        assert!(value.as_str().is_none() && value.as_entity().is_none());
    }
    assert!(set.as_record().is_none() && record.as_set().is_none());
    assert_eq!(PartialValue::from(1), PartialValue::Value(Value::from(1)));
    assert_eq!(
        PartialValue::from("a"),
        PartialValue::Value(Value::from(Literal::from("a")))
    );
    let open = Expr::slot(SlotId::principal());
    assert_eq!(PartialValue::from(open.clone()), PartialValue::Residual(open));
}

#[test]
fn sets_and_stores_are_collections() {
    let mut set = PolicySet::try_from_iter(["b", "a"].map(policy)).expect("two ids");
    assert_eq!((set.len(), set.is_empty()), (2, false));
    assert!(set.contains(&"a".into()) && !set.contains(&"c".into()));
    let ids: Vec<&str> = (&set).into_iter().map(|policy| policy.id().as_ref()).collect();
    assert_eq!(ids, ["b", "a"]);
    assert!(set.iter().eq(set.policies()));
    set.remove_static(&"b".into()).expect("a static policy");
    assert_eq!((set.len(), set.contains(&"b".into())), (1, false));
    assert!(
        set.into_iter()
            .map(|policy| policy.id().clone())
            .eq([PolicyID::from("a")])
    );

    let uid: EntityUID = r#"User::"alice""#.parse().expect("a uid");
    let store = Entities::from_entities([Entity::with_uid(uid.clone())], TCComputation::ComputeNow).expect("no cycle");
    assert!(store.contains(&uid) && !store.contains(&r#"User::"bob""#.parse().expect("a uid")));
    assert_eq!((&store).into_iter().count(), 1);

    let key = |text| AnyId::from_normalized_str(text).expect("an identifier");
    let value = |text: &str| Annotation::with_optional_value(Some(text.to_string()), None);
    let mut annotations = Annotations::from_iter([(key("a"), value("old")), (key("b"), value("b"))]);
    annotations.extend([(key("a"), value("new")), (key("c"), value("c"))]);
    let texts: Vec<String> = annotations
        .iter()
        .map(|(key, value)| format!("{key}={value}"))
        .collect();
    assert_eq!(texts, [r#"a="new""#, r#"b="b""#, r#"c="c""#]);
}

#[test]
fn a_policy_set_takes_the_hasher_of_the_standard_library() {
    let mut set = PolicySet::with_hasher(RandomState::new());
    for name in ["b", "a"] {
        set.add(policy(name)).expect("the id is free");
    }
    let mut other = PolicySet::with_hasher(RandomState::new());
    other
        .add(Policy::from_when_clause(
            Effect::Forbid,
            Expr::val(true),
            "a".into(),
            None,
        ))
        .expect("an empty set");
    let renaming = set.merge_policyset(&other, true).expect("the id is renamed");
    assert_eq!(renaming.get(&"a".into()), Some(&"policy0".into()));
    let copy = set.clone();
    set.remove_static(&"b".into()).expect("a static policy");
    assert_eq!((set.len(), copy.len()), (2, 3));
}

/// A type without bounds can contain stores, sets and errors of any parameter.
#[derive(Debug)]
#[allow(dead_code, reason = "the fields are read by `Debug`")]
struct Unbounded<K, S> {
    store: Entities<S>,
    set: PolicySet<S>,
    error: Option<TcError<K>>,
}

#[test]
fn bounds_stand_on_implementations() {
    let (store, set, error) = (Entities::new(), PolicySet::new(), None::<TcError<EntityUID>>);
    let text = format!("{:?}", Unbounded { store, set, error });
    assert!(text.starts_with("Unbounded { store: Entities {") && text.ends_with("error: None }"));
}

/// Returns the error of reading a uid.
fn parse_error(text: &str) -> ParseErrors {
    text.parse::<EntityUID>().expect_err("the text is not a uid")
}

#[test]
fn parse_errors_say_where_the_text_is_wrong() {
    use Expected::{Identifier, IdentifierPart, Mark, PrintedEid, Quote, Unreserved};
    let uids = [
        ("", 0, Quote),
        (r#"A::"b"#, 5, Quote),
        ("\"", 0, Mark),
        (r#"A::b""#, 4, Mark),
        (r#"A"b""#, 1, Mark),
        (r#"::"b""#, 0, Identifier),
        (r#"A::B::::"b""#, 6, Identifier),
        (r#"A::9::"b""#, 3, Identifier),
        (r#" A::"b""#, 0, Identifier),
        (r#"Ab::C d::"b""#, 5, IdentifierPart),
        (r#"A:B::"b""#, 1, IdentifierPart),
        (r#"A::é::"b""#, 3, Identifier),
        (r#"A::in::"b""#, 3, Unreserved),
        (r#"A::__cedar::"b""#, 3, Unreserved),
        (r#"A::"it's""#, 6, PrintedEid),
        (r#"A::"a"b""#, 5, PrintedEid),
        (r#"A::"\u{41}""#, 4, PrintedEid),
        (r#"A::"é\q""#, 6, PrintedEid),
        (r#"A::"ab\""#, 6, PrintedEid),
    ];
    for (text, offset, expected) in uids {
        let place = parse_error(text).place();
        assert_eq!((place.offset(), place.expected()), (offset, expected), "in {text}");
        assert!(text.is_char_boundary(offset), "in {text}");
    }
    let id = |text: &str| text.parse::<Id>().expect_err("no identifier").place();
    assert_eq!((id("a-b").offset(), id("a-b").expected()), (1, IdentifierPart));
    assert_eq!((id("like").offset(), id("like").expected()), (0, Unreserved));
    let name = |text: &str| text.parse::<Name>().expect_err("no name").to_string();
    assert_eq!(name("A::"), "not a valid name: expected an identifier at byte 3");
    assert_eq!(
        name("A::is"),
        "not a valid name: expected an identifier that is not reserved at byte 3"
    );
}

/// Checks that a copy of an error is equal to it and has its text, and that another error differs.
fn assert_error<E: std::error::Error + Clone + Eq + Send + Sync + 'static>(error: E, other: E) {
    assert!(error == error.clone() && error != other);
    assert_eq!(error.clone().to_string(), error.to_string());
}

#[test]
fn errors_are_copied_and_compared() {
    let slot = |id| TemplateValidationError::SlotsInConditionClause(Slot { id, loc: None });
    assert_error(slot(SlotId::principal()), slot(SlotId::resource()));
    assert_error(parse_error("A::b"), parse_error(r#"in::"b""#));
    let uid = |eid| EntityUID::with_eid_and_type("U", eid).expect("a valid entity type");
    assert_error(EntitiesError::Duplicate(uid("a")), EntitiesError::Duplicate(uid("b")));
    let edge = |grandparent| MissingTcEdge {
        child: 1,
        parent: 2,
        grandparent,
    };
    assert_error(TcError::MissingTcEdge(edge(3)), TcError::MissingTcEdge(edge(4)));
    assert_error(TcError::HasCycle(HasCycle::new(1)), TcError::HasCycle(HasCycle::new(2)));
}
