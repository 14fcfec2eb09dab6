//! Repeated queries whether an entity is a descendant of another, while the store changes. Each result is compared with
//! a search over plain lists of parents. A store caches results of queries up to a bound, and no cached result survives
//! an edit.
mod random;
mod short;
use cedar_store_proved::ast::Entity;
use cedar_store_proved::entities::Entities;
use cedar_store_proved::{Error, Reason};
use random::Dice;
use short::*;
use std::collections::{BTreeMap, BTreeSet};

// The parents of each entity.
type ParentMap = BTreeMap<usize, Vec<usize>>;

// Returns all ancestors of an entity.
fn reached(parent_map: &ParentMap, from: usize) -> BTreeSet<usize> {
    let mut ancestors = BTreeSet::new();
    let mut pending = vec![from];
    while let Some(entity) = pending.pop() {
        for parent in parent_map.get(&entity).into_iter().flatten() {
            if ancestors.insert(*parent) {
                pending.push(*parent);
            }
        }
    }
    ancestors
}

// Queries each pair, including a uid without an entity.
fn check_queries(store: &Entities, parent_map: &ParentMap, size: usize) {
    for child in 0..size + 1 {
        let ancestors = reached(parent_map, child);
        for ancestor in 0..size + 1 {
            let result = store.is_descendant_of(uid(child), uid(ancestor));
            let expected = parent_map
                .contains_key(&child)
                .then(|| ancestors.contains(&ancestor));
            assert_eq!(
                result.as_ref().ok().copied(),
                expected,
                "{child} is a descendant of {ancestor}"
            );
            if expected.is_none() {
                assert_eq!(result.unwrap_err().reason(), Reason::NoEntity);
            }
        }
    }
}

fn entity(place: usize, parents: &[usize]) -> Entity {
    Entity::with_uid(uid(place)).with_parents(parents.iter().map(uid))
}

// Returns parents with smaller numbers, so that there is no cycle.
fn parents(dice: &mut Dice, place: usize) -> Vec<usize> {
    let mut list: Vec<usize> = (0..dice.number(4))
        .map(|_| dice.number(place.max(1)))
        .collect();
    list.retain(|parent| *parent < place);
    list.sort_unstable();
    list.dedup();
    list
}

// Makes the same edit in both.
fn edit(store: &mut Entities, parent_map: &mut ParentMap, dice: &mut Dice, size: usize) {
    let place = dice.number(size);
    let new_parents = parents(dice, place);
    match dice.number(4) {
        0 => {
            store.remove(&[uid(place)], NOW).unwrap();
            if parent_map.remove(&place).is_some() {
                for list in parent_map.values_mut() {
                    list.retain(|parent| *parent != place);
                }
            }
        }
        1 => {
            let result: Result<(), Error> = store.add(&[entity(place, &[place])], NOW);
            assert!(result.is_err());
        }
        _ => {
            store.upsert(&[entity(place, &new_parents)], NOW).unwrap();
            parent_map.insert(place, new_parents);
        }
    }
}

#[test]
fn queries_after_each_edit_use_the_current_store() {
    for seed in 0..6 {
        let mut dice = Dice::new(seed);
        let size = 6 + dice.number(50);
        let mut store = Entities::new();
        let mut parent_map = ParentMap::new();
        for _ in 0..30 {
            edit(&mut store, &mut parent_map, &mut dice, size);
            check_queries(&store, &parent_map, size);
            check_queries(&store, &parent_map, size);
        }
    }
}

#[test]
fn queries_on_a_long_chain() {
    let size = 70;
    let parent_map: ParentMap = (0..size).map(|child| (child, vec![child + 1])).collect();
    let entities: Vec<Entity> = parent_map
        .iter()
        .map(|(child, parents)| entity(*child, parents))
        .collect();
    let store = Entities::from_entities(&entities, NOW).unwrap();
    check_queries(&store, &parent_map, size);
    check_queries(&store, &parent_map, size);
}

// More uids than a store caches, and uids whose texts are too long for its cache.
#[test]
fn more_queries_than_the_cache_can_store() {
    let store = store("a bc;b;c;d");
    let long = "x".repeat(2000);
    for round in 0..70_000 {
        assert!(!store.is_descendant_of(uid("a"), uid(round)).unwrap());
        if round % 1000 == 0 {
            assert!(store.is_descendant_of(uid("a"), uid("b")).unwrap());
            assert!(!store.is_descendant_of(uid("a"), uid(&long)).unwrap());
            assert!(!store.is_descendant_of(uid("d"), uid("c")).unwrap());
        }
    }
    assert!(store.is_descendant_of(uid("a"), uid("c")).unwrap());
}

#[test]
fn a_copy_and_a_slice_have_their_own_results() {
    let mut store = store("a b;b c;c;x c");
    assert!(store.is_descendant_of(uid("a"), uid("c")).unwrap());
    let copy = store.try_clone().unwrap();
    let slice = store.slice(&[uid("b")]).unwrap();
    store.remove(&[uid("b")], NOW).unwrap();
    for _ in 0..2 {
        assert!(!store.is_descendant_of(uid("a"), uid("c")).unwrap());
        assert!(copy.is_descendant_of(uid("a"), uid("c")).unwrap());
        assert!(slice.is_descendant_of(uid("b"), uid("c")).unwrap());
        let absent = slice.is_descendant_of(uid("a"), uid("c")).unwrap_err();
        assert_eq!(absent.reason(), Reason::NoEntity);
    }
}
