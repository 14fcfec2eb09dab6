//! Edits in place: each has the result of the edit by value, and leaves the store as it was after an error.
mod common;

use cedar_store::ast::{Entity, EntityUID};
use cedar_store::entities::{Entities, EntitiesError, TCComputation};
use common::{Random, child, rounds, with_eid};
use std::sync::Arc;

/// An edit of a store.
#[derive(Clone, Debug)]
enum Edit {
    Add(Vec<Arc<Entity>>),
    Upsert(Vec<Arc<Entity>>),
    Remove(Vec<EntityUID>),
}

impl Edit {
    /// Returns a random edit of less than `limit` of few uids. Some entities have an indirect ancestor, if that is
    /// allowed.
    fn random(random: &mut Random, uids: usize, limit: usize, is_plain: bool) -> Edit {
        let number = |random: &mut Random| random.below(uids).to_string();
        let count = random.below(limit);
        if random.below(3) == 0 {
            return Edit::Remove((0..count).map(|_| with_eid(&number(random))).collect());
        }
        let entity = |random: &mut Random| {
            let eid = number(random);
            let parents: Vec<String> = (0..random.below(3)).map(|_| number(random)).collect();
            let parents: Vec<&str> = parents.iter().map(String::as_str).collect();
            let mut entity = child(&eid, &parents);
            if !is_plain && random.below(4) == 0 {
                entity.add_indirect_ancestor(with_eid(&number(random)));
            }
            Arc::new(entity)
        };
        let list = (0..count).map(|_| entity(random)).collect();
        if random.below(2) == 0 {
            Edit::Add(list)
        } else {
            Edit::Upsert(list)
        }
    }

    fn by_value(self, store: Entities, mode: TCComputation) -> Result<Entities, EntitiesError> {
        match self {
            Edit::Add(list) => store.add_entities(list, mode),
            Edit::Upsert(list) => store.upsert_entities(list, mode),
            Edit::Remove(list) => store.remove_entities(list, mode),
        }
    }

    fn in_place(self, store: &mut Entities, mode: TCComputation) -> Result<(), EntitiesError> {
        match self {
            Edit::Add(list) => store.try_add_entities(list, mode),
            Edit::Upsert(list) => store.try_upsert_entities(list, mode),
            Edit::Remove(list) => store.try_remove_entities(list, mode),
        }
    }
}

/// Returns the reason of an error without the key of a cycle or of a missing edge, of which there can be several.
fn reason(error: &EntitiesError) -> String {
    match error {
        EntitiesError::TransitiveClosureError(error) => format!("{error:?}").split('(').next().unwrap().to_string(),
        other => other.to_string(),
    }
}

/// Makes random edits of a store in place and by value. Returns the number of edits and of errors.
fn compare(seed: u64, uids: usize, limit: usize, is_plain: bool) -> (usize, usize) {
    let modes = [
        TCComputation::ComputeNow,
        TCComputation::AssumeAlreadyComputed,
        TCComputation::EnforceAlreadyComputed,
    ];
    let (mut random, mut edits, mut errors) = (Random::new(seed), 0, 0);
    let mut store = Entities::new();
    for _ in 0..30 {
        let edit = Edit::random(&mut random, uids, limit, is_plain);
        let mode = modes[if is_plain { 0 } else { random.below(3) }];
        let before = store.clone();
        match (
            edit.clone().by_value(store.clone(), mode),
            edit.in_place(&mut store, mode),
        ) {
            (Ok(expected), Ok(())) => {
                assert!(store.deep_eq(&expected));
                edits += 1;
            }
            (Err(expected), Err(error)) => {
                assert_eq!(reason(&error), reason(&expected));
                assert!(store.deep_eq(&before));
                errors += 1;
            }
            (expected, result) => panic!("{expected:?} by value, {result:?} in place"),
        }
    }
    (edits, errors)
}

#[test]
fn edits_in_place_have_the_results_of_edits_by_value() {
    for is_plain in [true, false] {
        let (mut edits, mut errors) = (0, 0);
        for seed in 0..rounds(2000) {
            let (more_edits, more_errors) = compare(seed, 7, 4, is_plain);
            (edits, errors) = (edits + more_edits, errors + more_errors);
        }
        assert!(edits > errors && errors as u64 > rounds(2000), "{edits} {errors}");
    }
}

#[test]
fn stores_with_listed_children_keep_them() {
    // with more than 40 entities an index is used
    for seed in 0..rounds(200) {
        compare(seed, 90, 4, true);
    }
}

#[test]
fn lists_of_entities_that_lead_to_each_other() {
    let (mut edits, mut errors) = (0, 0);
    for seed in 0..rounds(1000) {
        let (more_edits, more_errors) = compare(seed, 40, 15, true);
        (edits, errors) = (edits + more_edits, errors + more_errors);
    }
    assert!(
        edits as u64 > 4 * rounds(1000) && errors as u64 > 4 * rounds(1000),
        "{edits} {errors}"
    );
}

#[test]
fn edits_of_a_partial_store() {
    let mut store = Entities::new().partial();
    let list = || [Arc::new(child("a", &["b"]))];
    store
        .try_add_entities(list(), TCComputation::ComputeNow)
        .expect("no cycle");
    let cycle = [Arc::new(child("b", &["a"]))];
    assert!(
        store
            .try_add_entities(cycle.clone(), TCComputation::ComputeNow)
            .is_err()
    );
    assert!(store.try_upsert_entities(cycle, TCComputation::ComputeNow).is_err());
    assert!(store.is_partial() && store.len() == 1);
    let removed = [with_eid("a"), with_eid("absent")];
    store
        .try_remove_entities(removed, TCComputation::ComputeNow)
        .expect("no cycle");
    assert!(store.is_partial() && store.is_empty());
}

#[test]
fn an_error_keeps_a_store_that_is_not_plain() {
    let (a, b) = (child("a", &["b"]), child("b", &["c"]));
    let mut store = Entities::from_entities([a], TCComputation::AssumeAlreadyComputed).expect("one entity");
    let error = store.try_add_entities([Arc::new(b.clone())], TCComputation::EnforceAlreadyComputed);
    assert!(error.is_err(), "a has no edge to c");
    assert_eq!(store.len(), 1);
    store
        .try_add_entities([Arc::new(b)], TCComputation::ComputeNow)
        .expect("no cycle");
    assert!(
        store
            .stored(&with_eid("a"))
            .is_some_and(|a| a.is_descendant_of(&with_eid("c")))
    );
}
