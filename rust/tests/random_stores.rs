//! Random sequences of calls on stores, compared with a plain model: a map from uids to parents. The model finds
//! ancestors by searching over the parents.
mod common;

use cedar_store::ast::{Entity, EntityUID};
use cedar_store::entities::{Entities, EntitiesError, TCComputation};
use cedar_store::slice;
use cedar_store::transitive_closure::TcError;
use common::Random;
use std::collections::{BTreeMap, BTreeSet};
use std::sync::Arc;

/// A uid of the model: its eid.
type Name = usize;
type Parents = BTreeSet<Name>;

/// The model: the parents of each entity.
#[derive(Clone, Debug, Default, PartialEq)]
struct InputStore(BTreeMap<Name, Parents>);

#[derive(Debug, PartialEq)]
enum ErrorKind {
    Duplicate(Name),
    Cycle,
}

impl InputStore {
    fn reachable(&self, from: Name) -> BTreeSet<Name> {
        let mut all = BTreeSet::new();
        let mut pending: Vec<Name> = self.0.get(&from).into_iter().flatten().copied().collect();
        while let Some(name) = pending.pop() {
            if all.insert(name) {
                pending.extend(self.0.get(&name).into_iter().flatten());
            }
        }
        all
    }

    fn checked(self) -> Result<InputStore, ErrorKind> {
        if self.0.keys().any(|name| self.reachable(*name).contains(name)) {
            Err(ErrorKind::Cycle)
        } else {
            Ok(self)
        }
    }

    /// Adds entities. A stored entity must have the same ancestors. If several have the same uid, the first one is
    /// used.
    fn add(&self, list: &[(Name, Parents)]) -> Result<InputStore, ErrorKind> {
        let mut next = self.clone();
        for (name, parents) in list {
            let existing = match self.0.contains_key(name) {
                true => Some(self.reachable(*name)),
                false => next.0.get(name).cloned(),
            };
            match existing {
                Some(ancestors) if ancestors != *parents => return Err(ErrorKind::Duplicate(*name)),
                Some(_) => {}
                None => {
                    next.0.insert(*name, parents.clone());
                }
            }
        }
        next.checked()
    }

    fn upsert(&self, list: &[(Name, Parents)]) -> Result<InputStore, ErrorKind> {
        let mut next = self.clone();
        next.0.extend(list.iter().cloned());
        next.checked()
    }

    fn remove(&self, list: &[Name]) -> InputStore {
        let removed: Vec<_> = list.iter().filter(|name| self.0.contains_key(name)).collect();
        let mut next = self.clone();
        next.0.retain(|name, _| !removed.contains(&name));
        for parents in next.0.values_mut() {
            parents.retain(|name| !removed.contains(&name));
        }
        next
    }
}

fn uid(name: Name) -> EntityUID {
    EntityUID::with_eid_and_type(if name % 3 == 0 { "A" } else { "B" }, &name.to_string()).unwrap()
}

fn name_of(uid: &EntityUID) -> Name {
    uid.eid().as_ref().parse().unwrap()
}

fn entity((name, parents): &(Name, Parents)) -> Entity {
    Entity::new_with_attr_partial_value(
        uid(*name),
        [],
        Default::default(),
        parents.iter().map(|parent| uid(*parent)).collect(),
        [],
    )
}

fn shared(list: &[(Name, Parents)]) -> Vec<Arc<Entity>> {
    list.iter().map(|entry| Arc::new(entity(entry))).collect()
}

/// Asserts that the store is equal to the model: its uids, parents and ancestors, by each way to query them.
fn assert_equals_model(store: &Entities, model: &InputStore) {
    assert_eq!(store.len(), model.0.len());
    for entity in store {
        let name = name_of(entity.uid());
        let parents: Parents = entity.parents().map(name_of).collect();
        assert_eq!(Some(&parents), model.0.get(&name), "the parents of {name}");
        let ancestors: Parents = entity.ancestors().map(name_of).collect();
        assert_eq!(ancestors, model.reachable(name), "the ancestors of {name}");
        assert_eq!(entity.ancestors().count(), ancestors.len());
        for ancestor in &ancestors {
            assert!(entity.is_descendant_of(&uid(*ancestor)));
            assert_eq!(entity.is_child_of(&uid(*ancestor)), parents.contains(ancestor));
        }
    }
}

fn error_kind(error: &EntitiesError, model: &InputStore) -> ErrorKind {
    match error {
        EntitiesError::Duplicate(uid) => ErrorKind::Duplicate(name_of(uid)),
        EntitiesError::TransitiveClosureError(TcError::HasCycle(cycle)) => {
            let named = name_of(cycle.vertex_with_loop());
            assert!(model.reachable(named).contains(&named), "{named} is on no cycle");
            ErrorKind::Cycle
        }
        other => panic!("{other}"),
    }
}

/// Returns a list of entities with few uids and few parents, so that every kind of error occurs. Most parents have
/// greater numbers, so that errors are rare.
fn random_list(random: &mut Random, model: &InputStore, uids: usize) -> Vec<(Name, Parents)> {
    (0..random.below(4))
        .map(|_| {
            let name = random.below(uids);
            let is_acyclic = !random.one_in(8);
            let parents: Parents = (0..random.below(4))
                .map(|_| {
                    if is_acyclic {
                        name + 1 + random.below(uids - name + 2)
                    } else {
                        random.below(uids)
                    }
                })
                .collect();
            // sometimes an entity that is already stored, with its ancestors
            let parents = if random.one_in(4) && model.0.contains_key(&name) {
                model.reachable(name)
            } else {
                parents
            };
            (name, parents)
        })
        .collect()
}

/// Returns the model after the edit, even if the edit returns an error. It shows whether a uid is on a cycle.
fn without_checks(model: &InputStore, list: &[(Name, Parents)], overwrites: bool) -> InputStore {
    let mut all = model.clone();
    for (name, parents) in list {
        if overwrites || !all.0.contains_key(name) {
            all.0.insert(*name, parents.clone());
        }
    }
    all
}

fn check_random_calls(seed: u64, uids: usize, calls: usize) -> (usize, usize) {
    let mut random = Random::new(seed);
    let (mut store, mut model) = (Entities::new(), InputStore::default());
    let (mut succeeded, mut failed) = (0, 0);
    for _ in 0..calls {
        let kind = random.below(7);
        if kind >= 5 {
            let list: Vec<Name> = (0..random.below(3)).map(|_| random.below(uids + 2)).collect();
            let mode = *random.choose(&[
                TCComputation::ComputeNow,
                TCComputation::ComputeNow,
                TCComputation::AssumeAlreadyComputed,
                TCComputation::EnforceAlreadyComputed,
            ]);
            model = model.remove(&list);
            store = store
                .remove_entities(list.into_iter().map(uid), mode)
                .expect("a removal never fails");
            succeeded += 1;
        } else {
            let list = random_list(&mut random, &model, uids);
            let before = store.clone();
            let (expected, result, overwrites) = match kind {
                0 => {
                    let expected = InputStore::default().add(&list);
                    (
                        expected,
                        Entities::from_entities(list.iter().map(entity), TCComputation::ComputeNow),
                        false,
                    )
                }
                1 | 2 => (
                    model.add(&list),
                    store.add_entities(shared(&list), TCComputation::ComputeNow),
                    false,
                ),
                _ => (
                    model.upsert(&list),
                    store.upsert_entities(shared(&list), TCComputation::ComputeNow),
                    true,
                ),
            };
            let from = if kind == 0 {
                InputStore::default()
            } else {
                model.clone()
            };
            match (expected, result) {
                (Ok(next), Ok(next_store)) => {
                    (model, store) = (next, next_store);
                    succeeded += 1;
                }
                (Err(expected), Err(result)) => {
                    assert_eq!(error_kind(&result, &without_checks(&from, &list, overwrites)), expected);
                    // the copy from before the call is unchanged
                    assert_equals_model(&before, &model);
                    store = before;
                    failed += 1;
                }
                (expected, result) => panic!(
                    "seed {seed}: expected {expected:?}, result {:?}",
                    result.map(|store| store.len())
                ),
            }
        }
        assert_equals_model(&store, &model);
        if random.one_in(4) {
            check_slice(&mut random, &store, &model, uids);
        }
    }
    (succeeded, failed)
}

/// Asserts that a slice contains the requested entities and their ancestors, each with its parents and ancestors.
fn check_slice(random: &mut Random, store: &Entities, model: &InputStore, uids: usize) {
    let count = random.below(4);
    checked_slice(random, (store, model), uids, count);
}

/// Returns a slice at `count` uids, which can be repeated, and the model of the slice.
fn checked_slice(
    random: &mut Random,
    whole: (&Entities, &InputStore),
    uids: usize,
    count: usize,
) -> (Entities, InputStore) {
    let (store, model) = whole;
    let requested: Vec<Name> = (0..count).map(|_| random.below(uids + 2)).collect();
    let sliced = slice(store, &requested.iter().map(|name| uid(*name)).collect::<Vec<_>>());
    let mut expected = InputStore::default();
    for name in requested.iter().filter(|name| model.0.contains_key(name)) {
        for member in model.reachable(*name).into_iter().chain([*name]) {
            if let Some(parents) = model.0.get(&member) {
                expected.0.insert(member, parents.clone());
            }
        }
    }
    assert_equals_model(&sliced, &expected);
    (sliced, expected)
}

#[test]
fn random_calls_on_few_uids() {
    let (mut succeeded, mut failed) = (0, 0);
    for seed in 0..common::rounds(4_000) {
        let counts = check_random_calls(seed, 7, 25);
        succeeded += counts.0;
        failed += counts.1;
    }
    assert!(
        succeeded as u64 > common::rounds(50_000) && failed as u64 > common::rounds(5_000),
        "{succeeded} calls succeeded and {failed} failed"
    );
}

/// A store with 40 or more entities can list children, and then edits search down from their own uids.
#[test]
fn random_edits_on_many_uids() {
    for seed in 0..40 {
        check_random_edits(seed, 120, 150);
    }
}

/// Makes only edits of a large store. Sometimes a slice of the store replaces it.
fn check_random_edits(seed: u64, uids: usize, calls: usize) {
    let mut random = Random::new(seed);
    let first: Vec<(Name, Parents)> = (0..uids)
        .map(|name| {
            (
                name,
                (0..random.below(3)).map(|_| name + 1 + random.below(12)).collect(),
            )
        })
        .collect();
    let mut model = InputStore::default().add(&first).expect("parents have greater names");
    let mut store = Entities::from_entities(first.iter().map(entity), TCComputation::ComputeNow).unwrap();
    for _ in 0..calls {
        let name = random.below(uids);
        if random.one_in(3) {
            model = model.remove(&[name]);
            store = store.remove_entities([uid(name)], TCComputation::ComputeNow).unwrap();
        } else {
            let entry = (
                name,
                (0..random.below(3)).map(|_| name + 1 + random.below(12)).collect(),
            );
            model = model
                .upsert(std::slice::from_ref(&entry))
                .expect("parents have greater names");
            store = store
                .upsert_entities(shared(&[entry]), TCComputation::ComputeNow)
                .unwrap();
        }
        assert_equals_model(&store, &model);
        if random.one_in(25) {
            (store, model) = checked_slice(&mut random, (&store, &model), uids, uids * 2 / 3);
        }
    }
}

/// All graphs of three nodes, and all graphs of four nodes without loops. Each is built, and then each node is
/// overwritten without parents and removed.
#[test]
fn all_small_graphs() {
    for bits in 0..512_u32 {
        check_every_edit(3, &|from, to| bits >> (3 * from + to) & 1 == 1);
    }
    for bits in 0..4096_u32 {
        check_every_edit(4, &|from, to| {
            from != to && bits >> (3 * from + to - usize::from(to > from)) & 1 == 1
        });
    }
}

fn check_every_edit(size: usize, has_edge: &dyn Fn(usize, usize) -> bool) {
    let list: Vec<(Name, Parents)> = (0..size)
        .map(|from| (from, (0..size).filter(|to| has_edge(from, *to)).collect()))
        .collect();
    let built = Entities::from_entities(list.iter().map(entity), TCComputation::ComputeNow);
    let Ok(model) = InputStore::default().add(&list) else {
        assert_eq!(
            error_kind(
                &built.unwrap_err(),
                &without_checks(&InputStore::default(), &list, false)
            ),
            ErrorKind::Cycle
        );
        return;
    };
    let store = built.expect("there is no cycle");
    assert_equals_model(&store, &model);
    for name in 0..size {
        let without_parents = [(name, Parents::new())];
        let overwritten = store
            .clone()
            .upsert_entities(shared(&without_parents), TCComputation::ComputeNow)
            .unwrap();
        assert_equals_model(&overwritten, &model.upsert(&without_parents).unwrap());
        let removed = store
            .clone()
            .remove_entities([uid(name)], TCComputation::ComputeNow)
            .unwrap();
        assert_equals_model(&removed, &model.remove(&[name]));
    }
}
