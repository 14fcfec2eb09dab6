//! Helpers to create and inspect stores and sets by short texts. A name x of one letter is the uid `A::"x"`.
#![allow(dead_code)]
use cedar_store_proved::ast::{Effect, Entity, EntityUID, PolicyID, PolicySet, SlotEnv, SlotId};
use cedar_store_proved::entities::{Entities, TCComputation};
use cedar_store_proved::{Error, Reason, Renaming, Slots};

pub const NOW: TCComputation = TCComputation::ComputeNow;
pub const ENFORCE: TCComputation = TCComputation::EnforceAlreadyComputed;
pub const ASSUME: TCComputation = TCComputation::AssumeAlreadyComputed;

/// Parses a uid.
pub fn parse_uid(text: &str) -> EntityUID {
    EntityUID::from_normalized_str(text).expect("a uid")
}

/// Returns the uid with this name.
pub fn uid(name: impl std::fmt::Display) -> EntityUID {
    parse_uid(&format!("A::\"{name}\""))
}

/// Returns the uids with these names of one letter.
pub fn uids(names: &str) -> Vec<EntityUID> {
    names.chars().map(uid).collect()
}

/// Returns entities by their names, each followed by the names of its parents. For example, `a bc;b` is an entity a
/// with the parents b and c, and an entity b.
pub fn parse_entities(spec: &str) -> Vec<Entity> {
    let entities = spec.split(';').filter(|spec| !spec.is_empty());
    entities
        .map(|spec| Entity::with_uid(uid(&spec[..1])).with_parents(uids(spec[1..].trim())))
        .collect()
}

/// Returns a store of such entities, with computed ancestors.
pub fn store(spec: &str) -> Entities {
    Entities::from_entities(parse_entities(spec), NOW).unwrap()
}

// Returns the names of uids, concatenated.
fn names(uids: Vec<EntityUID>) -> String {
    uids.iter().map(|uid| uid.eid().as_ref()).collect()
}

/// Returns the names of an entity's ancestors, in order. Asserts that the entity is a descendant of the ancestors and
/// not of other uids.
pub fn ancestors(store: &Entities, name: &str) -> String {
    let ancestors = store.ancestors(uid(name)).unwrap();
    let entity = store.entity(&uid(name)).unwrap();
    assert!(entity.ancestors_in_order().eq(&ancestors));
    for other in ancestors.iter().cloned().chain(uids("abcdefghxyz")) {
        let is_ancestor = ancestors.contains(&other);
        assert_eq!(
            store.is_descendant_of(uid(name), &other).unwrap(),
            is_ancestor
        );
        assert_eq!(
            entity.is_descendant_of(&other),
            is_ancestor,
            "{name} is a descendant of {other}"
        );
    }
    names(ancestors)
}

/// Returns the names of an entity's parents, in order.
pub fn parents(store: &Entities, name: &str) -> String {
    names(store.parents(uid(name)).unwrap())
}

/// Returns the names of the entities that the store contains, in the order of `candidates`.
pub fn entity_names(store: &Entities, candidates: &str) -> String {
    candidates
        .chars()
        .filter(|name| store.contains(uid(name)).unwrap())
        .collect()
}

pub fn add(store: Entities, spec: &str) -> Result<Entities, Error> {
    Ok(store.add_entities(parse_entities(spec), NOW)?)
}

pub fn upsert(store: Entities, spec: &str, mode: TCComputation) -> Result<Entities, Error> {
    Ok(store.upsert_entities(parse_entities(spec), mode)?)
}

pub fn remove(store: Entities, names: &str, mode: TCComputation) -> Result<Entities, Error> {
    Ok(store.remove_entities(uids(names), mode)?)
}

/// Asserts that a call returned an error with this reason and this text.
pub fn assert_error<T, E: Into<Error>>(result: Result<T, E>, reason: Reason, text: &str) {
    let error: Error = result.err().expect("an error").into();
    assert_eq!((error.reason(), error.to_string().as_str()), (reason, text));
}

/// Asserts that a call reported a cycle at one of these names.
pub fn assert_cycle<T, E: Into<Error>>(result: Result<T, E>, names: &str) {
    let error: Error = result.err().expect("an error").into();
    assert_eq!(error.reason(), Reason::Cycle);
    let texts: Vec<String> = uids(names)
        .iter()
        .map(|uid| format!("cycle at {uid}"))
        .collect();
    assert!(texts.contains(&error.to_string()), "{error}");
}

/// Returns a set with items that are described as for `add_item`.
pub fn set(specs: &[&str]) -> PolicySet {
    let mut set = PolicySet::new();
    for spec in specs {
        add_item(&mut set, spec).unwrap();
    }
    set
}

/// Adds an item to a set. The text is one of `permit ID`, `forbid ID`, `template ID SLOTS` and `link TEMPLATE ID
/// SLOTS`. Slots are given by the letters p, a and r. The slots of a link are bound to `A::"x"`, `Action::"x"` and
/// `A::"y"`.
pub fn add_item(set: &mut PolicySet, spec: &str) -> Result<(), Error> {
    let fields: Vec<&str> = spec.split(' ').collect();
    match fields[..] {
        ["permit", id] => set.bind_static(id, Effect::Permit)?,
        ["forbid", id] => set.bind_static(id, Effect::Forbid)?,
        ["template", id, slots] => set.bind_template(id, Effect::Permit, slots_of(slots))?,
        ["link", template, id, slots] => drop(set.link(template, id, bindings_of(slots))?),
        _ => panic!("{spec}"),
    }
    Ok(())
}

/// Returns the id with this text.
pub fn id(text: &str) -> PolicyID {
    PolicyID::from_string(text)
}

/// Returns bindings of one slot to the uid with this text.
pub fn bound(slot: SlotId, uid: &str) -> SlotEnv {
    SlotEnv::from([(slot, parse_uid(uid))])
}

pub fn slots_of(letters: &str) -> Slots {
    Slots {
        principal: letters.contains('p'),
        action: letters.contains('a'),
        resource: letters.contains('r'),
    }
}

pub fn bindings_of(letters: &str) -> SlotEnv {
    let slots = [
        ('p', SlotId::Principal, "A::\"x\""),
        ('a', SlotId::Action, "Action::\"x\""),
        ('r', SlotId::Resource, "A::\"y\""),
    ];
    let bound = slots
        .into_iter()
        .filter(|(letter, ..)| letters.contains(*letter));
    bound.map(|(_, slot, uid)| (slot, parse_uid(uid))).collect()
}

/// Returns the ids of bodies and the ids of policies, separated by spaces.
pub fn ids(set: &PolicySet) -> (String, String) {
    let (bodies, policies) = (set.body_ids().unwrap(), set.policy_ids().unwrap());
    assert!(set
        .all_templates()
        .map(|body| body.id().as_ref())
        .eq(&bodies));
    assert!(set
        .policies()
        .map(|policy| policy.id().as_ref())
        .eq(&policies));
    (bodies.join(" "), policies.join(" "))
}

/// Returns a renaming as a text: `a>b c>d`.
pub fn renaming_text<E: std::fmt::Debug>(result: Result<Renaming, E>) -> String {
    let texts: Vec<String> = result
        .unwrap()
        .iter()
        .map(|(old, new)| format!("{old}>{new}"))
        .collect();
    texts.join(" ")
}
