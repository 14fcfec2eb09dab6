//! Descendants and paths of drawn stores, compared with plain searches over a map of parents. The stores have cycles,
//! edges to themselves, parents that are not stored and indirect ancestors, and are partial or slices. Also deep chains
//! and hubs.
mod common;

use cedar_store::ast::{Entity, EntityType, EntityUID};
use cedar_store::entities::{Entities, TCComputation};
use cedar_store::slice;
use common::{Random, TYPES, drawn_uid, drawn_with, node, numbered, rounds};
use std::borrow::Borrow;
use std::collections::{BTreeMap, BTreeSet, HashMap, VecDeque};
use std::sync::Arc;

/// The parents of each stored entity.
type Parents = BTreeMap<EntityUID, BTreeSet<EntityUID>>;

/// Returns an entity without attributes and tags.
fn drawn_entity(random: &mut Random, count: usize, indirect: bool) -> Entity {
    drawn_with(random, count, indirect, |_| Vec::new())
}

fn parents_of(store: &Entities) -> Parents {
    store
        .iter()
        .map(|entity| (entity.uid().clone(), entity.parents().cloned().collect()))
        .collect()
}

/// Returns the number of steps to each uid that a uid reaches over parents, by a breadth-first search.
fn steps_from(parents: &Parents, from: &EntityUID) -> HashMap<EntityUID, usize> {
    let mut steps = HashMap::new();
    let mut pending = VecDeque::from([(from.clone(), 0)]);
    while let Some((child, count)) = pending.pop_front() {
        for parent in parents.get(&child).into_iter().flatten() {
            if !steps.contains_key(parent) {
                steps.insert(parent.clone(), count + 1);
                pending.push_back((parent.clone(), count + 1));
            }
        }
    }
    steps
}

/// Compares all queries of a store with the model, for these uids and for each stored one.
fn check_queries(store: &Entities, others: &[EntityUID]) {
    let parents = parents_of(store);
    let uids: BTreeSet<EntityUID> = parents.keys().chain(others).cloned().collect();
    let steps: BTreeMap<&EntityUID, _> = uids.iter().map(|from| (from, steps_from(&parents, from))).collect();
    for to in &uids {
        let expected: Vec<&EntityUID> = parents.keys().filter(|from| steps[from].contains_key(to)).collect();
        assert_eq!(store.descendants(to).collect::<Vec<_>>(), expected);
        for name in TYPES {
            let ty = EntityType::from_normalized_str(name).unwrap();
            let of_type: Vec<_> = store.descendants_of_type(to, &ty).collect();
            let expected = expected.iter().copied().filter(|one| *one.entity_type() == ty);
            assert_eq!(of_type, expected.collect::<Vec<_>>());
        }
        for from in &uids {
            check_path(store, &parents, (from, to), steps[from].get(to).copied());
        }
    }
}

/// Checks that a path has this many steps, each to a parent, or that there is none.
fn check_path(store: &Entities, parents: &Parents, (from, to): (&EntityUID, &EntityUID), steps: Option<usize>) {
    let found = store.path(from, to);
    assert_eq!(found.is_some(), steps.is_some(), "from {from} to {to}");
    assert_eq!(store.reaches(from, to), steps.is_some());
    let Some(found) = found else { return };
    let found: Vec<&EntityUID> = found.iter().map(Borrow::borrow).collect();
    assert_eq!(Some(found.len() - 1), steps);
    assert_eq!((found[0], found[found.len() - 1]), (from, to));
    for step in found.windows(2) {
        assert!(parents[step[0]].contains(step[1]));
    }
}

/// Returns a drawn store, created in a mode. Entities with a repeated uid are left out.
fn drawn_store(random: &mut Random, count: usize, mode: TCComputation, indirect: bool) -> Option<Entities> {
    let drawn: BTreeMap<EntityUID, Entity> = (0..random.below(count + 1))
        .map(|_| drawn_entity(random, count, indirect))
        .map(|entity| (entity.uid().clone(), entity))
        .collect();
    Entities::from_entities(drawn.into_values(), mode).ok()
}

#[test]
fn queries_of_drawn_stores() {
    let mut random = Random::new(80);
    let mut plain = 0;
    for round in 0..rounds(20_000) {
        let count = 1 + random.below(8);
        let mode = if round % 2 == 0 {
            TCComputation::ComputeNow
        } else {
            TCComputation::AssumeAlreadyComputed
        };
        let indirect = random.one_in(3);
        let Some(mut store) = drawn_store(&mut random, count, mode, indirect) else {
            continue;
        };
        if random.one_in(4) {
            store = store.partial();
        }
        let others: Vec<EntityUID> = (0..3).map(|_| drawn_uid(&mut random, count)).collect();
        check_queries(&store, &others);
        check_queries(&slice(&store, &others), &others);
        plain += usize::from(round % 2 == 0 && !indirect);
    }
    assert!(plain > 50, "{plain} stores had all ancestors computed");
}

/// A store that lists its children is edited, and its queries are compared with the model.
#[test]
fn queries_of_stores_that_list_their_children() {
    let mut random = Random::new(81);
    for _ in 0..rounds(200) {
        let chain = (0..60).map(|number| numbered(number, &[number + 1, number / 2 + 60]));
        let mut store = Entities::from_entities(chain, TCComputation::ComputeNow).unwrap();
        for _ in 0..30 {
            let number = random.below(60);
            let parents: Vec<usize> = (0..random.below(3)).map(|_| number + 1 + random.below(20)).collect();
            let edit = [Arc::new(numbered(number, &parents))];
            store = store.upsert_entities(edit, TCComputation::ComputeNow).unwrap();
        }
        let removed = [node(random.below(60))];
        store = store.remove_entities(removed, TCComputation::ComputeNow).unwrap();
        check_queries(&store, &[node(70)]);
    }
}

/// Searches are neither recursive nor quadratic.
#[test]
fn queries_of_deep_chains_and_of_hubs() {
    let size = 200_000;
    let chain = (0..size).map(|number| numbered(number, &[number + 1]));
    let store = Entities::from_entities(chain, TCComputation::AssumeAlreadyComputed).unwrap();
    let (first, last) = (node(0), node(size));
    let found = store.path(&first, &last).expect("a path");
    assert!(found.len() == size + 1 && found.into_iter().enumerate().all(|(at, one)| one.eq(&node(at))));
    assert_eq!(store.path(&last, &first), None);
    let below = store.descendants(&last);
    assert!(below.len() == size && below.enumerate().all(|(at, one)| one.eq(&node(at))));
    let size = 100_000;
    for mode in [TCComputation::ComputeNow, TCComputation::AssumeAlreadyComputed] {
        let hub = (0..size).map(|number| numbered(number, &[size]));
        let store = Entities::from_entities(hub, mode).unwrap();
        assert_eq!(store.descendants(&node(size)).len(), size);
        assert_eq!(store.descendants(&node(1)).len(), 0);
        assert_eq!(store.path(&node(1), &node(size)).unwrap(), [&node(1), &node(size)]);
        assert!(store.reaches(&node(1), &node(size)) && !store.reaches(&node(1), &node(2)));
    }
}
