//! Tests of stores: building, adding, overwriting, removing and slicing, in the three modes.
mod short;
use cedar_store_proved::ast::{Entity, EntityUID};
use cedar_store_proved::entities::Entities;
use cedar_store_proved::{is_uid, Reason, TCComputation};
use short::*;

#[test]
fn only_normalized_uids_are_parsed() {
    let valid = [
        "A::\"it\\'s\\t\"",
        "A::\"A::B::\\\"quoted\\\"\"",
        "A::\"\"",
        "A::\"\\n\"",
        "A::B::\"c\"",
        "A::\"é\"",
    ];
    let invalid = [
        "A::\"it's\"",
        "A::\"\\u{0041}\"",
        "A :: \"alice\"",
        "A::alice",
        "__cedar::\"alice\"",
        "A::\"a\"b\"",
        "\"alice\"",
        "",
        "A::\"alice\" ",
        "A::\"alice\"//comment",
        "A::B",
        "if::\"alice\"",
        " A::\"alice\"",
    ];
    for text in valid {
        assert!(is_uid(text).unwrap(), "{text}");
        assert_eq!(EntityUID::from_normalized_str(text).unwrap(), text);
    }
    for text in invalid {
        assert!(!is_uid(text).unwrap(), "{text}");
        assert!(EntityUID::from_normalized_str(text).is_err(), "{text}");
    }
}

#[test]
fn an_invalid_uid_is_an_error_and_changes_nothing() {
    let mut entities = store("a b");
    assert_error(entities.remove(["a"], NOW), Reason::NotAUid, "not a uid");
    assert_error(entities.get("a", "k"), Reason::NotAUid, "not a uid");
    assert_error(entities.ancestors("a"), Reason::NotAUid, "not a uid");
    assert_error(entities.slice(["a"]), Reason::NotAUid, "not a uid");
    assert_error(entities.contains("a"), Reason::NotAUid, "not a uid");
    assert_error(
        entities.is_descendant_of(uid("a"), "b"),
        Reason::NotAUid,
        "not a uid",
    );
    assert_eq!(ancestors(&entities, "a"), "b");
}

#[test]
fn uids_are_ordered_by_basename_then_path_then_eid() {
    let parents = [
        "B::\"aaa\"",
        "AA::\"zzz\"",
        "B::AA::\"m\"",
        "AA::\"aaa\"",
        "A::AA::\"n\"",
    ];
    let entities = Entities::from_entities(
        &[Entity::with_uid(uid("a")).with_parents(parents.map(parse_uid))],
        NOW,
    )
    .unwrap();
    let expected = [
        "AA::\"aaa\"",
        "AA::\"zzz\"",
        "A::AA::\"n\"",
        "B::AA::\"m\"",
        "B::\"aaa\"",
    ];
    assert_eq!(entities.ancestors(uid("a")).unwrap(), expected);
    assert_eq!(entities.parents(uid("a")).unwrap(), expected);
}

#[test]
fn removal_removes_stale_ancestors() {
    let entities = remove(store("a b;b c;c"), "b", NOW).unwrap();
    assert_eq!(ancestors(&entities, "a"), "");
    let diamond = remove(store("a bd;b c;d c;c"), "b", NOW).unwrap();
    assert_eq!(ancestors(&diamond, "a"), "cd");
}

#[test]
fn removal_of_several_entities() {
    let spec = "a bd;b c;d c;c e";
    let without_both = remove(store(spec), "bd", NOW).unwrap();
    assert_eq!(
        (ancestors(&without_both, "a"), ancestors(&without_both, "c")),
        (String::new(), String::from("e"))
    );
    let without_b = remove(store(spec), "b", NOW).unwrap();
    assert_eq!(ancestors(&without_b, "a"), "cde");
}

#[test]
fn a_parent_without_an_entity_stays_a_parent() {
    let entities = store("a b");
    assert_eq!(ancestors(&entities, "a"), "b");
    let entities = remove(entities, "b", NOW).unwrap();
    assert_eq!(ancestors(&entities, "a"), "b");
    let entities = add(entities, "b c").unwrap();
    assert_eq!(ancestors(&entities, "a"), "bc");
}

#[test]
fn only_the_final_state_of_an_edit_is_checked_for_cycles() {
    let entities = upsert(store("a b;b c;c"), "c b;b", NOW).unwrap();
    assert_eq!(
        (
            ancestors(&entities, "a"),
            ancestors(&entities, "b"),
            ancestors(&entities, "c")
        ),
        ("b".into(), "".into(), "b".into())
    );
}

#[test]
fn cycles_are_errors() {
    assert_cycle(add(store("a b"), "b a"), "ab");
    assert_error(
        Entities::from_entities(parse_entities("a a"), NOW),
        Reason::Cycle,
        "cycle at A::\"a\"",
    );
    assert_cycle(upsert(store("a b;b"), "b a", NOW), "ab");
}

#[test]
fn a_failed_edit_changes_nothing() {
    let mut entities = store("a b");
    let copy = entities.try_clone().unwrap();
    assert_cycle(entities.add(parse_entities("x y;b a"), NOW), "ab");
    assert!(entities.deep_eq(&copy));
    assert_cycle(entities.upsert(parse_entities("b a;x y"), NOW), "ab");
    assert!(entities.deep_eq(&copy));
    for mode in [
        NOW,
        TCComputation::EnforceAlreadyComputed,
        TCComputation::AssumeAlreadyComputed,
    ] {
        assert_eq!(
            entities
                .add(parse_entities("x y;a c"), mode)
                .unwrap_err()
                .reason(),
            Reason::Duplicate
        );
        assert!(entities.deep_eq(&copy));
    }
    entities.add(parse_entities("b c"), NOW).unwrap();
    assert_eq!(
        (entities.len(), ancestors(&entities, "a")),
        (2, "bc".into())
    );
}

#[test]
fn adding_a_stored_uid_requires_equal_ancestors() {
    assert_error(
        add(store("a b;b c;c"), "a b"),
        Reason::Duplicate,
        "duplicate entity A::\"a\"",
    );
    let entities = add(store("a b;b c;c"), "a bc").unwrap();
    assert_eq!(parents(&entities, "a"), "b");
    assert_error(
        Entities::from_entities(parse_entities("a b;a c"), NOW),
        Reason::Duplicate,
        "duplicate entity A::\"a\"",
    );
    assert_eq!(store("a b;a b").len(), 1);
    assert_error(
        add(store("a b"), "b a;a c"),
        Reason::Duplicate,
        "duplicate entity A::\"a\"",
    );
}

#[test]
fn upsert_uses_the_last_version() {
    let entities = upsert(store("a b"), "a c;a d", NOW).unwrap();
    assert_eq!(ancestors(&entities, "a"), "d");
}

#[test]
fn building_in_each_mode() {
    let text = "ancestors not closed at A::\"a\" A::\"b\" A::\"c\"";
    assert_error(
        Entities::from_entities(parse_entities("a b;b c"), ENFORCE),
        Reason::NotClosed,
        text,
    );
    let entities = Entities::from_entities(parse_entities("a b;b c"), ASSUME).unwrap();
    assert_eq!(ancestors(&entities, "a"), "b");
    assert_error(entities.validate(), Reason::NotClosed, text);
    assert_eq!(entities.len(), 2);
    let closed = Entities::from_entities(parse_entities("a bc;b c"), ENFORCE).unwrap();
    assert!(closed.deep_eq(&store("a b;b c")) && closed.try_validate().is_ok());
}

#[test]
fn overwriting_in_each_mode() {
    let spec = "a b;b c;c";
    let assumed = upsert(store(spec), "b c", ASSUME).unwrap();
    assert_eq!(
        (ancestors(&assumed, "a"), ancestors(&assumed, "b")),
        ("b".into(), "c".into())
    );
    let text = "ancestors not closed at A::\"a\" A::\"b\" A::\"c\"";
    assert_error(upsert(store(spec), "b c", ENFORCE), Reason::NotClosed, text);
    let computed = upsert(store(spec), "b c", NOW).unwrap();
    assert_eq!(ancestors(&computed, "a"), "bc");
}

#[test]
fn removing_in_each_mode_repairs() {
    for mode in [NOW, ENFORCE, ASSUME] {
        let entities = remove(store("a bd;b c;d c;c"), "b", mode).unwrap();
        assert_eq!(ancestors(&entities, "a"), "cd");
    }
}

#[test]
fn unaffected_entities_stay_unchanged() {
    let mut entities = Entities::from_entities(parse_entities("x y;y z;d"), ASSUME).unwrap();
    entities = upsert(entities, "d e", NOW).unwrap();
    assert_eq!(ancestors(&entities, "x"), "y");
    entities = add(entities, "f").unwrap();
    assert_eq!(ancestors(&entities, "x"), "y");
    entities = remove(entities, "f", NOW).unwrap();
    assert_eq!(ancestors(&entities, "x"), "y");
    entities = add(entities, "x y").unwrap();
    assert_eq!(ancestors(&entities, "x"), "y");
    entities = add(entities, "z").unwrap();
    assert_eq!(ancestors(&entities, "x"), "y");
}

#[test]
fn stale_ancestors_are_removed_in_any_order() {
    let spec = "a b;b c;c d;d";
    let entities = upsert(store(spec), "c;b d", NOW).unwrap();
    assert_eq!(all_ancestors(&entities, "abc"), ["bd", "d", ""]);
    for order in ["bc", "cb"] {
        assert_eq!(
            ancestors(&remove(store(spec), order, NOW).unwrap(), "a"),
            ""
        );
    }
    let assumed = upsert(store("a be;b c;c;e f;f"), "b", ASSUME).unwrap();
    assert_eq!(ancestors(&assumed, "a"), "bef");
}

#[test]
fn lists_with_repeated_and_absent_uids() {
    let spec = "a b;b;c;d";
    let entities = upsert(store(spec), "b c;b d;b;c a", NOW).unwrap();
    assert_eq!(all_ancestors(&entities, "abc"), ["b", "", "ab"]);
    let once = remove(store("a b;b;c a;d"), "b", NOW).unwrap();
    let often = remove(store("a b;b;c a;d"), "bbzb", NOW).unwrap();
    assert!(once.deep_eq(&often));
    assert_eq!(all_ancestors(&often, "ac"), ["", "a"]);
    assert_eq!(stored_names(&often), "acd");
}

// Returns the ancestors of each of some entities.
fn all_ancestors(store: &Entities, names: &str) -> Vec<String> {
    names
        .split("")
        .filter(|name| !name.is_empty())
        .map(|name| ancestors(store, name))
        .collect()
}

fn stored_names(store: &Entities) -> String {
    entity_names(store, "abcdefxyz")
}

#[test]
fn adding_and_removing_a_parent_of_a_hundred_entities() {
    let children: Vec<Entity> = (0..100)
        .map(|i| Entity::with_uid(uid(i)).with_parent(uid("x")))
        .collect();
    let mut entities = Entities::from_entities(&children, NOW).unwrap();
    let all_have = |entities: &Entities, names: &str| {
        (0..100).all(|i| ancestors(entities, &i.to_string()) == names)
    };
    assert!(all_have(&entities, "x"));
    entities = add(entities, "x y").unwrap();
    assert!(all_have(&entities, "xy"));
    entities = remove(entities, "x", NOW).unwrap();
    assert!(all_have(&entities, ""));
    entities = add(entities, "x").unwrap();
    assert!(all_have(&entities, "") && entities.len() == 101);
}

#[test]
fn ancestors_in_a_chain_of_five_hundred() {
    let chain: Vec<Entity> = (0..500)
        .map(|i| Entity::with_uid(uid(i)).with_parents((i < 499).then(|| uid(i + 1))))
        .collect();
    let entities = Entities::from_entities(&chain, NOW).unwrap();
    let count: usize = (0..500)
        .map(|i| entities.ancestors(uid(i)).unwrap().len())
        .sum();
    assert_eq!(count, 124_750);
    assert!(entities.is_descendant_of(uid(0), uid(499)).unwrap());
    assert!(!entities.is_descendant_of(uid(499), uid(0)).unwrap());
    assert!(entities.validate().is_ok());
}

#[test]
fn ancestors_of_actions_must_be_actions() {
    let validate = |child: &str, parents: &[&str]| {
        Entities::from_entities(
            &[Entity::with_uid(parse_uid(child))
                .with_parents(parents.iter().map(|uid| parse_uid(uid)))],
            NOW,
        )
        .unwrap()
        .try_validate()
    };
    let (view, read_action) = ("Action::\"view\"", "Action::\"read\"");
    let text = "ancestor of an action that is none Action::\"view\" User::\"x\"";
    assert_error(
        validate(view, &["User::\"x\""]),
        Reason::ActionParentIsNotAction,
        text,
    );
    let text = "ancestor of an action that is none Action::\"v\" S::\"z\"";
    let result = validate("Action::\"v\"", &["T::\"z\"", "S::\"z\""]);
    assert_error(result, Reason::ActionParentIsNotAction, text);
    assert!(
        validate(view, &[read_action]).is_ok() && validate("User::\"x\"", &[read_action]).is_ok()
    );
    assert_error(
        validate("N::Action::\"v\"", &["A::\"a\""]),
        Reason::ActionParentIsNotAction,
        "ancestor of an action that is none N::Action::\"v\" A::\"a\"",
    );
}

#[test]
fn validation_reports_the_fault_of_the_least_uid() {
    let entities = ["b", "a"].map(|name| {
        Entity::with_uid(parse_uid(&format!("Action::\"{name}\""))).with_parent(uid("x"))
    });
    let entities = Entities::from_entities(&entities, NOW).unwrap();
    let text = "ancestor of an action that is none Action::\"a\" A::\"x\"";
    assert_error(entities.validate(), Reason::ActionParentIsNotAction, text);
}

#[test]
fn slices_contain_the_requested_uids_and_their_ancestors() {
    let entities = store("a b;b c;d b");
    let slice = entities.slice(uids("aza")).unwrap();
    assert_eq!(
        (slice.len(), ancestors(&slice, "a"), stored_names(&slice)),
        (2, "bc".into(), "ab".into())
    );
    assert!(slice.slice(uids("z")).unwrap().is_empty());
    let entities = store("a b;b c;c d;d;e");
    assert_eq!(stored_names(&entities.slice(uids("a")).unwrap()), "abcd");
    assert_eq!(stored_names(&entities.slice(uids("d")).unwrap()), "d");
    assert!(entities.slice(uids("")).unwrap().is_empty());
    assert_eq!(entities.len(), 5);
}

#[test]
fn queries_of_absent_entities_are_errors() {
    let entities = store("a b");
    assert_error(entities.ancestors(uid("b")), Reason::NoEntity, "no entity");
    assert_error(entities.parents(uid("z")), Reason::NoEntity, "no entity");
    assert_error(
        entities.is_descendant_of(uid("b"), uid("c")),
        Reason::NoEntity,
        "no entity",
    );
    assert!(entities.entity(&uid("b")).data().is_none() && entities.stored(&uid("b")).is_none());
    let entity = entities.entity(&uid("a")).unwrap();
    assert_eq!(*entity.uid(), uid("a"));
    assert!(entity.ancestors().eq(&uids("b")) && entity.parents().eq(&uids("b")));
    assert!(entity.is_descendant_of(&uid("b")) && !entity.is_descendant_of(&uid("a")));
}

#[test]
fn equal_stores_have_the_same_ancestors() {
    let original = store("a b;b c;c");
    assert!(original.deep_eq(&original) && original.deep_eq(&original.try_clone().unwrap()));
    assert!(original.deep_eq(&store("c;b c;a cb")));
    assert!(
        !original.deep_eq(&store("a b;b c"))
            && !original.deep_eq(&store("a b;b;c"))
            && !original.deep_eq(&Entities::new())
    );
}
