//! Tests of numbers of uids: the calls with them, how long they are valid, and that they belong to one store.
mod short;
use cedar_store_proved::{Entities, Reason, UidNumber};
use short::*;

fn numbered(store: &Entities, name: &str) -> UidNumber {
    let number = store.number(uid(name)).unwrap();
    assert_eq!(store.uid_of_number(number).unwrap(), uid(name));
    number
}

#[test]
fn a_uid_always_has_the_same_number() {
    let entities = store("a b;b c");
    let (a, q) = (numbered(&entities, "a"), numbered(&entities, "q"));
    assert!(a != q && a == numbered(&entities, "a") && q == numbered(&entities, "q"));
    assert_eq!(
        entities
            .uid_of_number(entities.number("A::\"é\"").unwrap())
            .unwrap(),
        "A::\"é\""
    );
    assert_error(entities.number("a"), Reason::NotAUid, "not a uid");
}

#[test]
fn queries_by_number_equal_queries_by_uid() {
    let entities = store("a b;b c;c de;x");
    for child in "abcx".chars().map(String::from) {
        for other in "abcdex".chars().map(String::from) {
            let by_numbers = entities
                .is_descendant_of_numbers(numbered(&entities, &child), numbered(&entities, &other));
            assert_eq!(
                by_numbers,
                entities.is_descendant_of(uid(&child), uid(&other))
            );
        }
    }
    let (a, d) = (numbered(&entities, "a"), numbered(&entities, "d"));
    assert!(entities.contains_number(a).unwrap() && !entities.contains_number(d).unwrap());
    assert_error(
        entities.is_descendant_of_numbers(d, a),
        Reason::NoEntity,
        "no entity",
    );
}

#[test]
fn numbers_stay_valid_after_edits() {
    let mut entities = store("a b;b c");
    let (a, z) = (numbered(&entities, "a"), numbered(&entities, "z"));
    assert!(!entities.is_descendant_of_numbers(a, z).unwrap());
    entities.upsert(parse_entities("b z"), NOW).unwrap();
    assert!(entities.is_descendant_of_numbers(a, z).unwrap());
    assert_reason(entities.add(parse_entities("z a"), NOW), Reason::Cycle);
    assert_eq!((numbered(&entities, "a"), numbered(&entities, "z")), (a, z));
    entities.remove(uids("a"), NOW).unwrap();
    assert!(!entities.contains_number(a).unwrap());
    let entities = entities
        .partial()
        .add_entities(parse_entities("a z"), NOW)
        .unwrap();
    assert!(entities.is_descendant_of_numbers(a, z).unwrap());
}

// Asserts that a call returned an error with this reason.
fn assert_reason<T>(result: Result<T, cedar_store_proved::Error>, reason: Reason) {
    assert_eq!(result.err().map(|error| error.reason()), Some(reason));
}

#[test]
fn a_number_of_another_store_is_an_error() {
    let entities = store("a b;b c");
    let (a, b) = (numbered(&entities, "a"), numbered(&entities, "b"));
    for other in [
        entities.try_clone().unwrap(),
        entities.slice(uids("a")).unwrap(),
        store("a b"),
    ] {
        numbered(&other, "b");
        assert_error(
            other.contains_number(a),
            Reason::BadArgument,
            "bad argument",
        );
        assert_error(
            other.is_descendant_of_numbers(a, b),
            Reason::BadArgument,
            "bad argument",
        );
        assert_error(
            other.is_descendant_of_numbers(numbered(&other, "a"), b),
            Reason::BadArgument,
            "bad argument",
        );
        assert_error(other.uid_of_number(b), Reason::BadArgument, "bad argument");
        let (a, b) = (numbered(&other, "a"), numbered(&other, "b"));
        assert!(other.is_descendant_of_numbers(a, b).unwrap());
    }
    assert!(entities.is_descendant_of_numbers(a, b).unwrap());
}
