//! Tests of stores whose entities have attributes, tags and indirect ancestors. The stores are built, changed, read,
//! compared and written. Also tests of the errors.
mod random;
mod short;
use cedar_store_proved::ast::{Entity, PartialValue, Value};
use cedar_store_proved::entities::{Entities, EntitiesError};
use cedar_store_proved::Reason;
use random::Dice;
use short::*;

fn number(value: i64) -> PartialValue {
    PartialValue::from(Value::from(value))
}

// Returns an entity with a number as an attribute, and with these parents.
fn numbered(name: &str, parents: &str, key: &str, value: i64) -> Entity {
    let entity = Entity::with_uid(uid(name)).with_parents(uids(parents));
    entity.with_attr(key, number(value))
}

#[test]
fn attributes_and_tags_are_separate() {
    let a = numbered("a", "b", "k", 2)
        .with_tag("k", number(3))
        .with_attr("", Value::from(true))
        .with_tag("z", Value::from("z"))
        .with_attr("é", Value::from(false));
    let store = Entities::from_entities([numbered("b", "", "k", 1), a.clone()], NOW).unwrap();
    let lengths = |name: &str| {
        (
            store.attrs_len(uid(name)).unwrap(),
            store.tags_len(uid(name)).unwrap(),
        )
    };
    assert_eq!((lengths("a"), lengths("b")), ((3, 2), (1, 0)));
    assert_eq!(store.keys(uid("a")).unwrap(), ["", "k", "é"]);
    assert_eq!(store.tag_keys(uid("a")).unwrap(), ["k", "z"]);
    assert_eq!(store.get(uid("a"), "k").unwrap(), Some(number(2)));
    assert_eq!(store.get_tag(uid("a"), "k").unwrap(), Some(number(3)));
    assert_eq!(store.get(uid("b"), "k").unwrap(), Some(number(1)));
    assert_eq!(store.get_tag(uid("b"), "k").unwrap(), None);
    assert_eq!(store.get(uid("a"), "z").unwrap(), None);
    let stored = store.entity(&uid("a")).unwrap();
    assert_eq!((stored.attrs_len(), stored.tags_len()), (3, 2));
    assert!(stored.keys().eq(["", "k", "é"]) && stored.tag_keys().eq(["k", "z"]));
    assert!(stored.attrs().eq(a.attrs()) && stored.tags().eq(a.tags()));
    assert!(stored.deep_eq(&a) && stored.into_entity().deep_eq(&a));
    assert_error(store.get(uid("z"), "k"), Reason::NoEntity, "no entity");
    assert_error(store.get_tag("z", "k"), Reason::NotAUid, "not a uid");
}

#[test]
fn edits_change_attributes_and_ancestors() {
    let mut entities = store("b c");
    entities.add([numbered("a", "b", "k", 1)], NOW).unwrap();
    assert_eq!(entities.get(uid("a"), "k").unwrap(), Some(number(1)));
    assert_eq!(ancestors(&entities, "a"), "bc");
    // adding the same entity again, with all of its ancestors, changes nothing
    entities.add([numbered("a", "bc", "k", 1)], NOW).unwrap();
    assert_eq!(parents(&entities, "a"), "b");
    let before = entities.clone();
    entities.upsert([numbered("a", "b", "k", 2)], NOW).unwrap();
    assert_eq!(entities.get(uid("a"), "k").unwrap(), Some(number(2)));
    assert_eq!(before.get(uid("a"), "k").unwrap(), Some(number(1)));
    assert!(!entities.deep_eq(&before) && entities == before);
    assert!(!entities.entity_equal(uid("a"), &before).unwrap());
    assert!(entities.entity_equal(uid("b"), &before).unwrap());
    let slice = entities.slice([uid("a")]).unwrap();
    assert_eq!(slice.get(uid("a"), "k").unwrap(), Some(number(2)));
    entities.upsert(parse_entities("a b"), NOW).unwrap();
    assert_eq!(entities.attrs_len(uid("a")).unwrap(), 0);
    entities.remove([uid("b")], NOW).unwrap();
    assert_eq!(ancestors(&entities, "a"), "");
}

#[test]
fn entities_with_different_content_are_duplicates() {
    let (original, changed) = (numbered("a", "b", "k", 1), numbered("a", "b", "k", 2));
    let tagged = Entity::with_uid(uid("a"))
        .with_parent(uid("b"))
        .with_tag("k", number(1));
    let plain = parse_entities("a b").remove(0);
    for differing in [&changed, &tagged, &plain] {
        let result = Entities::from_entities([&original, differing], NOW);
        assert_eq!(result.unwrap_err(), EntitiesError::Duplicate(uid("a")));
        let store = Entities::from_entities([&original], NOW).unwrap();
        let text = "duplicate entity A::\"a\"";
        assert_error(
            store.clone().add_entities([differing], NOW),
            Reason::Duplicate,
            text,
        );
        assert!(store
            .upsert_entities([differing], NOW)
            .unwrap()
            .stored(&uid("a"))
            .unwrap()
            .deep_eq(differing));
    }
    assert_eq!(
        Entities::from_entities([&original, &original], NOW)
            .unwrap()
            .len(),
        1
    );
}

#[test]
fn indirect_ancestors_are_passed_and_returned() {
    let mut a = Entity::with_uid(uid("a")).with_parent(uid("b"));
    a.add_indirect_ancestor(uid("c"));
    let b = parse_entities("b c").remove(0);
    let store = Entities::from_entities([&a, &b], ENFORCE).unwrap();
    let stored = store.entity(&uid("a")).unwrap();
    assert!(stored.is_child_of(&uid("b")) && stored.is_indirect_descendant_of(&uid("c")));
    assert!(!stored.is_child_of(&uid("c")) && !stored.is_indirect_descendant_of(&uid("b")));
    assert!(stored.parents().eq(&uids("b")) && stored.indirect_ancestors().eq(&uids("c")));
    assert!(store.deep_eq(&short::store("a b;b c")));
    // a parent is not an indirect ancestor any more after it was passed to the library
    let with_both_ancestors = Entity::new_with_attr_partial_value(
        uid("a"),
        [],
        uids("bc").into_iter().collect(),
        uids("b").into_iter().collect(),
        [],
    );
    let store = Entities::from_entities([with_both_ancestors, b.clone()], ENFORCE).unwrap();
    assert_eq!(store.indirect_ancestors(uid("a")).unwrap(), uids("c"));
    a.remove_all_indirect_ancestors();
    let text = "ancestors not closed at A::\"a\" A::\"b\" A::\"c\"";
    assert_error(
        Entities::from_entities([&a, &b], ENFORCE),
        Reason::NotClosed,
        text,
    );
    a.add_indirect_ancestor(uid("a"));
    assert_error(
        Entities::from_entities([a], NOW),
        Reason::Cycle,
        "cycle at A::\"a\"",
    );
}

#[test]
fn validation_reports_a_reserved_key() {
    for key in ["__entity", "__extn", "__expr"] {
        let value = Value::set([Value::record([(key, Value::from(1))], None)], None);
        let entity = Entity::with_uid(uid("a")).with_tag("k", value);
        let store = Entities::from_entities([&entity], NOW).unwrap();
        assert_error(
            store.validate(),
            Reason::ReservedKey,
            &format!("reserved key {key}"),
        );
        let expected = EntitiesError::ReservedKey(key.into());
        assert_eq!(store.try_validate().unwrap_err(), expected);
        assert!(entity.validate().unwrap_err() == expected && !entity.is_valid());
    }
    assert!(numbered("a", "b", "__entity", 1).is_valid());
}

// The library returns random entities as they were passed to it. A stored entity and the original are written in the
// same way.
#[test]
fn random_entities_are_returned_unchanged() {
    let dice = &mut Dice::new(3);
    for _ in 0..1000 {
        let entity = random::entity(dice);
        let store = Entities::from_entities([&entity], ASSUME).unwrap();
        let stored = store.entity(entity.uid()).unwrap();
        assert_eq!(stored.to_string(), entity.to_string());
        let decoded = stored.clone().into_entity();
        assert!(decoded.deep_eq(&entity), "{decoded}\n{entity}");
        assert!(decoded.parents().eq(entity.parents()));
        let is_indirect = |uid| !entity.is_child_of(uid);
        assert!(decoded
            .indirect_ancestors()
            .eq(entity.indirect_ancestors().filter(|uid| is_indirect(uid))));
        assert_eq!(entity.validate().is_ok(), store.try_validate().is_ok());
    }
}

// Random stores are converted to entities and built rebuilt. Two stores are compared at one uid.
#[test]
fn random_stores_can_be_rebuilt_from_their_entities() {
    let (dice, mut overwritten) = (&mut Dice::new(4), 0);
    for _ in 0..300 {
        let entities: Vec<Entity> = (0..dice.number(12)).map(|_| random::entity(dice)).collect();
        let store = Entities::new().upsert_entities(&entities, ASSUME).unwrap();
        for (place, entity) in entities.iter().enumerate() {
            let is_last = entities[place + 1..].iter().all(|other| other != entity);
            let stored = store.entity(entity.uid()).unwrap();
            assert!(stored.deep_eq(entity) || !is_last);
            overwritten += usize::from(!stored.deep_eq(entity));
        }
        let parts: Vec<Entity> = store.clone().into_iter().collect();
        let rebuilt = Entities::from_entities(&parts, ASSUME).unwrap();
        assert!(rebuilt.deep_eq(&store) && rebuilt == store);
        for entity in &parts {
            assert!(rebuilt.entity_equal(entity.uid(), &store).unwrap());
            let edited = entity.clone().with_attr("new", number(1));
            let other = store.clone().upsert_entities([edited], ASSUME).unwrap();
            assert!(!other.entity_equal(entity.uid(), &store).unwrap());
            assert!(!other.deep_eq(&store) && other == store);
        }
    }
    assert!(overwritten > 50, "{overwritten}");
}
