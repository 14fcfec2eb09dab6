//! Random calls on stores in the three modes, over stores that are closed and over stores that are not. Asserts the
//! properties that hold for each mode. Also slices of stores that are not closed.
mod common;

use cedar_store::ast::{Entity, EntityUID};
use cedar_store::entities::{Dereference, Entities, EntitiesError, TCComputation};
use cedar_store::slice;
use cedar_store::transitive_closure::TcError;
use common::Random;
use std::collections::{BTreeMap, BTreeSet};
use std::sync::Arc;

type Name = usize;
type Names = BTreeSet<Name>;

/// An entity: its parents and its indirect ancestors.
#[derive(Clone, Debug, Default, PartialEq)]
struct Ancestry {
    parents: Names,
    indirect: Names,
}

impl Ancestry {
    fn ancestors(&self) -> Names {
        &self.parents | &self.indirect
    }
}

type StoreModel = BTreeMap<Name, Ancestry>;

const MODES: [TCComputation; 3] = [
    TCComputation::AssumeAlreadyComputed,
    TCComputation::EnforceAlreadyComputed,
    TCComputation::ComputeNow,
];

fn uid(name: Name) -> EntityUID {
    EntityUID::with_eid_and_type("A", &name.to_string()).unwrap()
}

fn name_of(uid: &EntityUID) -> Name {
    uid.eid().as_ref().parse().unwrap()
}

fn entity(name: Name, ancestry: &Ancestry) -> Entity {
    let all = |names: &Names| names.iter().map(|name| uid(*name)).collect();
    Entity::new_with_attr_partial_value(uid(name), [], all(&ancestry.indirect), all(&ancestry.parents), [])
}

fn shared(list: &[(Name, Ancestry)]) -> Vec<Arc<Entity>> {
    list.iter()
        .map(|(name, ancestry)| Arc::new(entity(*name, ancestry)))
        .collect()
}

fn model_of(store: &Entities) -> StoreModel {
    let mut model = StoreModel::new();
    for entity in store.iter() {
        let ancestry = Ancestry {
            parents: entity.parents().map(name_of).collect(),
            indirect: entity.indirect_ancestors().map(name_of).collect(),
        };
        model.insert(name_of(entity.uid()), ancestry);
    }
    model
}

/// Returns everything that is reachable over the given edges: over parents or over all ancestors.
fn reachable(model: &StoreModel, from: Name, edges: fn(&Ancestry) -> Names) -> Names {
    let mut all = Names::new();
    let mut pending: Vec<Name> = model.get(&from).map(edges).into_iter().flatten().collect();
    while let Some(name) = pending.pop() {
        if all.insert(name) {
            pending.extend(model.get(&name).map(edges).into_iter().flatten());
        }
    }
    all
}

fn reachable_over_parents(model: &StoreModel, from: Name) -> Names {
    reachable(model, from, |ancestry| ancestry.parents.clone())
}

fn is_plain(model: &StoreModel) -> bool {
    model.iter().all(|(name, ancestry)| {
        let ancestors = reachable_over_parents(model, *name);
        ancestry.ancestors() == ancestors
            && ancestry.indirect.is_disjoint(&ancestry.parents)
            && !ancestors.contains(name)
    })
}

fn is_closed_without_loop(model: &StoreModel) -> bool {
    model.iter().all(|(name, ancestry)| {
        let edges = ancestry.ancestors();
        !edges.contains(name)
            && edges
                .iter()
                .all(|to| model.get(to).is_none_or(|next| next.ancestors().is_subset(&edges)))
    })
}

/// Asserts that an error of the closure is justified by the entities that the call would store.
fn assert_is_justified(error: &EntitiesError, model: Option<&StoreModel>) {
    let edges = |name: &EntityUID| {
        model
            .and_then(|model| model.get(&name_of(name)))
            .map(Ancestry::ancestors)
            .unwrap_or_default()
    };
    match error {
        EntitiesError::TransitiveClosureError(TcError::MissingTcEdge(error)) if model.is_some() => {
            assert!(edges(&error.child).contains(&name_of(&error.parent)));
            assert!(edges(&error.parent).contains(&name_of(&error.grandparent)));
            assert!(!edges(&error.child).contains(&name_of(&error.grandparent)));
        }
        EntitiesError::TransitiveClosureError(_) => {}
        other => panic!("{other}"),
    }
}

fn random_ancestry(random: &mut Random, name: Name, uids: usize, with_indirect: bool) -> Ancestry {
    let random_parent = |random: &mut Random| {
        if random.one_in(9) {
            random.below(uids)
        } else {
            name + 1 + random.below(4)
        }
    };
    let parents: Names = (0..random.below(3)).map(|_| random_parent(random)).collect();
    let others: Names = if with_indirect {
        (0..random.below(3)).map(|_| random_parent(random)).collect()
    } else {
        Names::new()
    };
    Ancestry {
        indirect: &others - &parents,
        parents,
    }
}

/// Returns a store that is plain, is closed over arbitrary edges, or is not closed.
fn random_store(random: &mut Random, uids: usize, plain: bool) -> Option<Entities> {
    let mut model = StoreModel::new();
    for name in 0..uids {
        if !random.one_in(4) {
            model.insert(name, random_ancestry(random, name, uids, !plain));
        }
    }
    let mode = if plain {
        TCComputation::ComputeNow
    } else {
        TCComputation::AssumeAlreadyComputed
    };
    Entities::from_entities(model.iter().map(|(name, ancestry)| entity(*name, ancestry)), mode).ok()
}

/// Asserts that entities which are not affected by a call did not change.
fn assert_unaffected_unchanged(before: &StoreModel, after: &StoreModel, edited: &Names) {
    for (name, ancestry) in before {
        if !edited.contains(name) && ancestry.ancestors().is_disjoint(edited) {
            assert_eq!(after.get(name), Some(ancestry), "{name} is not affected by {edited:?}");
        }
    }
}

fn last_versions(list: &[(Name, Ancestry)]) -> StoreModel {
    list.iter().cloned().collect()
}

fn check_upsert(random: &mut Random, store: &Entities, uids: usize, mode: TCComputation) {
    let before = model_of(store);
    let list: Vec<(Name, Ancestry)> = (0..random.below(4))
        .map(|_| {
            let name = random.below(uids);
            let with_indirect = random.one_in(3);
            (name, random_ancestry(random, name, uids, with_indirect))
        })
        .collect();
    let upserted = last_versions(&list);
    let mut expected = before.clone();
    expected.extend(upserted.clone());
    let result = store.clone().upsert_entities(shared(&list), mode);
    let after = match result {
        Ok(after) => model_of(&after),
        Err(error) => {
            assert_ne!(mode, TCComputation::AssumeAlreadyComputed, "{error}");
            return assert_is_justified(&error, None);
        }
    };
    assert_eq!(after.keys().collect::<NameRefs>(), expected.keys().collect());
    assert_unaffected_unchanged(&before, &after, &upserted.keys().copied().collect());
    for (name, ancestry) in &after {
        assert_eq!(
            ancestry.parents, expected[name].parents,
            "the parents are those of the upserted entity"
        );
    }
    if mode == TCComputation::ComputeNow {
        let no_indirect = list.iter().all(|(_, ancestry)| ancestry.indirect.is_empty());
        assert!(!(no_indirect && is_plain(&before)) || is_plain(&after));
        return;
    }
    assert!(mode == TCComputation::AssumeAlreadyComputed || is_closed_without_loop(&after));
    for (name, ancestry) in &after {
        match upserted.get(name) {
            Some(own) => assert!(
                ancestry.indirect.is_subset(&own.indirect),
                "overwriting adds no ancestor"
            ),
            None => assert!(
                ancestry.indirect.is_subset(&before[name].indirect),
                "overwriting adds no ancestor"
            ),
        }
    }
    if is_plain(&before) && list.iter().all(|(_, ancestry)| ancestry.indirect.is_empty()) {
        assert_removes_stale_ancestors(&before, &after, &upserted);
    }
}

type NameRefs<'a> = BTreeSet<&'a Name>;

/// Asserts which indirect ancestors an overwriting of a plain store removed: exactly those that are a uid of the list,
/// or that are ancestors over a uid of the list.
fn assert_removes_stale_ancestors(before: &StoreModel, after: &StoreModel, upserted: &StoreModel) {
    let existing: Vec<Name> = upserted
        .keys()
        .copied()
        .filter(|name| before.contains_key(name))
        .collect();
    for (name, ancestry) in before.iter().filter(|(name, _)| !upserted.contains_key(name)) {
        let ancestors = reachable_over_parents(before, *name);
        let is_stale = |ancestor: &Name| {
            existing.iter().any(|over| {
                over == ancestor || ancestors.contains(over) && reachable_over_parents(before, *over).contains(ancestor)
            })
        };
        let expected: Names = ancestry
            .indirect
            .iter()
            .copied()
            .filter(|ancestor| !is_stale(ancestor))
            .collect();
        assert_eq!(
            after[name].indirect, expected,
            "the indirect ancestors of {name} in {before:?} after overwriting {upserted:?}"
        );
    }
}

fn check_remove(random: &mut Random, store: &Entities, uids: usize, mode: TCComputation) {
    let before = model_of(store);
    let list: Vec<Name> = (0..random.below(3)).map(|_| random.below(uids)).collect();
    let removed: Names = list.iter().copied().filter(|name| before.contains_key(name)).collect();
    let result = store.clone().remove_entities(list.iter().map(|name| uid(*name)), mode);
    let after = match result {
        Ok(after) => model_of(&after),
        Err(error) => {
            assert!(
                mode != TCComputation::AssumeAlreadyComputed && !is_plain(&before),
                "{error}"
            );
            return assert_is_justified(&error, None);
        }
    };
    assert_eq!(
        after.keys().copied().collect::<Names>(),
        &before.keys().copied().collect() - &removed
    );
    assert_unaffected_unchanged(&before, &after, &removed);
    for (name, ancestry) in &after {
        assert_eq!(ancestry.parents, &before[name].parents - &removed);
        let added_indirect = &ancestry.indirect - &before[name].indirect;
        assert!(added_indirect.is_subset(&reachable(&before, *name, Ancestry::ancestors)));
    }
    assert!(mode != TCComputation::EnforceAlreadyComputed || is_closed_without_loop(&after));
    assert!(!is_plain(&before) || is_plain(&after));
}

fn check_add(random: &mut Random, store: &Entities, uids: usize, mode: TCComputation) {
    let before = model_of(store);
    let mut list: Vec<(Name, Ancestry)> = Vec::new();
    for _ in 0..random.below(4) {
        let name = random.below(uids);
        let with_indirect = random.one_in(3);
        // an entity that is already stored is added with its ancestors, so that it agrees with the stored one
        let ancestry = match before.get(&name).or_else(|| {
            list.iter()
                .find(|(other, _)| *other == name)
                .map(|(_, ancestry)| ancestry)
        }) {
            Some(stored) => Ancestry {
                parents: stored.ancestors(),
                indirect: Names::new(),
            },
            None => random_ancestry(random, name, uids, with_indirect),
        };
        list.push((name, ancestry));
    }
    let mut expected = before.clone();
    for (name, ancestry) in &list {
        expected.entry(*name).or_insert_with(|| ancestry.clone());
    }
    let new_names: Names = expected
        .keys()
        .copied()
        .filter(|name| !before.contains_key(name))
        .collect();
    let result = store.clone().add_entities(shared(&list), mode);
    match (mode, result) {
        (TCComputation::ComputeNow, Ok(after)) => {
            let after = model_of(&after);
            assert_unaffected_unchanged(&before, &after, &new_names);
            let no_indirect = list.iter().all(|(_, ancestry)| ancestry.indirect.is_empty());
            assert!(!(no_indirect && is_plain(&before)) || is_plain(&after));
        }
        (TCComputation::ComputeNow, Err(error)) => assert_is_justified(&error, None),
        (TCComputation::AssumeAlreadyComputed, result) => {
            assert_eq!(model_of(&result.expect("the addition succeeds")), expected)
        }
        (TCComputation::EnforceAlreadyComputed, Ok(after)) => {
            assert!(is_closed_without_loop(&expected));
            assert_eq!(model_of(&after), expected);
        }
        (TCComputation::EnforceAlreadyComputed, Err(error)) => {
            assert!(!is_closed_without_loop(&expected));
            assert_is_justified(&error, Some(&expected));
        }
    }
}

/// Asserts for a slice of any store: it contains the requested entities and their ancestors, as far as the store
/// contains them. Each has the parents and ancestors that it has in the store.
fn check_slice(random: &mut Random, store: &Entities, uids: usize) {
    let model = model_of(store);
    let requested: Vec<Name> = (0..random.below(4)).map(|_| random.below(uids)).collect();
    let sliced = model_of(&slice(
        store,
        &requested.iter().map(|name| uid(*name)).collect::<Vec<_>>(),
    ));
    let mut expected = StoreModel::new();
    for name in &requested {
        let Some(ancestry) = model.get(name) else { continue };
        for member in ancestry.ancestors().into_iter().chain([*name]) {
            expected.extend(model.get(&member).map(|ancestry| (member, ancestry.clone())));
        }
    }
    assert_eq!(sliced, expected);
}

#[test]
fn random_calls_on_random_stores() {
    let (mut plain, mut other) = (0, 0);
    for seed in 0..common::rounds(30_000) {
        let mut random = Random::new(seed);
        let uids = 2 + random.below(8);
        let make_plain = random.one_in(2);
        let Some(store) = random_store(&mut random, uids, make_plain) else {
            continue;
        };
        *if is_plain(&model_of(&store)) {
            &mut plain
        } else {
            &mut other
        } += 1;
        for mode in MODES {
            check_add(&mut random, &store, uids, mode);
            check_upsert(&mut random, &store, uids, mode);
            check_remove(&mut random, &store, uids, mode);
        }
        check_slice(&mut random, &store, uids);
    }
    assert!(
        plain > common::rounds(8_000) && other > common::rounds(8_000),
        "{plain} stores are plain and {other} are not"
    );
}

/// Returns an entity with at most two parents, whose names are greater.
fn with_greater_parents(random: &mut Random, name: Name) -> (Name, Ancestry) {
    let parents = (0..random.below(3)).map(|_| name + 1 + random.below(6)).collect();
    let indirect = Names::new();
    (name, Ancestry { parents, indirect })
}

/// Edits by long lists with duplicates, absent uids, and uids that are ancestors of one another.
#[test]
fn edits_by_long_lists() {
    for seed in 0..600 {
        let mut random = Random::new(seed);
        let uids = 60;
        let model: Vec<(Name, Ancestry)> = (0..uids).map(|name| with_greater_parents(&mut random, name)).collect();
        let entities = model.iter().map(|(name, ancestry)| entity(*name, ancestry));
        let store = Entities::from_entities(entities, TCComputation::ComputeNow).expect("parents have greater names");
        let list: Vec<(Name, Ancestry)> = (0..30)
            .map(|_| {
                let name = random.below(uids + 3);
                with_greater_parents(&mut random, name)
            })
            .collect();
        let mode = *random.choose(&MODES);
        let upserted = last_versions(&list);
        if let Ok(after) = store.clone().upsert_entities(shared(&list), mode) {
            let (before, after) = (model_of(&store), model_of(&after));
            assert_unaffected_unchanged(&before, &after, &upserted.keys().copied().collect());
            match mode {
                TCComputation::ComputeNow => assert!(is_plain(&after)),
                _ => assert_removes_stale_ancestors(&before, &after, &upserted),
            }
        } else {
            assert_eq!(mode, TCComputation::EnforceAlreadyComputed);
        }
        let removed: Vec<Name> = (0..30).map(|_| random.below(uids + 3)).collect();
        let remaining = store
            .clone()
            .remove_entities(removed.iter().map(|name| uid(*name)), mode)
            .expect("the removal succeeds");
        assert!(is_plain(&model_of(&remaining)));
        for name in removed {
            assert!(matches!(remaining.entity(&uid(name)), Dereference::NoSuchEntity));
        }
    }
}
