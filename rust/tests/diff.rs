//! The differences of drawn stores, compared with plain set differences over maps of the entities. The stores have cycles,
//! edges to themselves, parents that are not stored, indirect ancestors and values, and are partial or slices. Also deep
//! chains and hubs.
mod common;

use cedar_store::ast::{Entity, EntityUID, Value};
use cedar_store::entities::{Entities, EntitiesError, StoreDiff, TCComputation};
use cedar_store::slice;
use common::{Random, drawn_uid, drawn_with, node, numbered, rounds, uid};
use std::collections::{BTreeMap, BTreeSet};
use std::sync::Arc;
use std::time::Instant;

type Uids = BTreeSet<EntityUID>;

/// The content of an entity in the model: attributes, tags, and each parent with whether it is an indirect ancestor.
type Content = (
    BTreeMap<String, String>,
    BTreeMap<String, String>,
    BTreeMap<EntityUID, bool>,
);

/// An entity in the model: its content, and its ancestors.
#[derive(Clone, Debug, PartialEq)]
struct Plain {
    content: Content,
    ancestors: Uids,
}

type Model = BTreeMap<EntityUID, Plain>;

fn plain(entity: &Entity) -> Plain {
    let attrs = entity.attrs().map(|(key, value)| (key.to_owned(), value.to_string()));
    let tags = entity.tags().map(|(key, value)| (key.to_owned(), value.to_string()));
    let parents = entity
        .parents()
        .map(|parent| (parent.clone(), entity.is_indirect_descendant_of(parent)));
    Plain {
        content: (attrs.collect(), tags.collect(), parents.collect()),
        ancestors: entity.ancestors().cloned().collect(),
    }
}

fn model_of(store: &Entities) -> Model {
    store
        .iter()
        .map(|entity| (entity.uid().clone(), plain(entity)))
        .collect()
}

fn listed<'a>(entities: impl IntoIterator<Item = &'a Entity>) -> Vec<(EntityUID, Plain)> {
    let entities = entities.into_iter();
    entities.map(|entity| (entity.uid().clone(), plain(entity))).collect()
}

/// The entities that only the first model has, in ascending order.
fn only_in(one: &Model, other: &Model) -> Vec<(EntityUID, Plain)> {
    let missing = one.iter().filter(|(uid, _)| !other.contains_key(uid));
    missing.map(|(uid, entity)| (uid.clone(), entity.clone())).collect()
}

/// Compares a difference with the differences of the plain maps.
fn check(diff: &StoreDiff, old: &Entities, new: &Entities) {
    let (one, other) = (model_of(old), model_of(new));
    assert_eq!(listed(diff.removed()), only_in(&one, &other));
    assert_eq!(listed(diff.added()), only_in(&other, &one));
    let both: Vec<_> = one
        .iter()
        .filter_map(|(uid, entity)| Some((uid, entity, other.get(uid)?)))
        .collect();
    let changed = both.iter().filter(|(_, before, after)| before.content != after.content);
    assert_eq!(
        diff.changed()
            .iter()
            .map(|change| (
                change.after().uid().clone(),
                plain(change.before()),
                plain(change.after())
            ))
            .collect::<Vec<_>>(),
        changed
            .map(|(uid, before, after)| ((*uid).clone(), (*before).clone(), (*after).clone()))
            .collect::<Vec<_>>()
    );
    assert!(
        diff.changed()
            .iter()
            .all(|change| change.before().uid() == change.after().uid())
    );
    let ancestry = both
        .iter()
        .filter(|(_, before, after)| before.ancestors != after.ancestors);
    assert_eq!(
        diff.ancestry()
            .iter()
            .map(|change| {
                let (gained, lost) = (change.gained().cloned().collect(), change.lost().cloned().collect());
                (change.uid().clone(), gained, lost)
            })
            .collect::<Vec<(EntityUID, Vec<_>, Vec<_>)>>(),
        ancestry
            .map(|(uid, before, after)| {
                let gained = after.ancestors.difference(&before.ancestors).cloned().collect();
                let lost = before.ancestors.difference(&after.ancestors).cloned().collect();
                ((*uid).clone(), gained, lost)
            })
            .collect::<Vec<_>>()
    );
    let mode = (old.is_partial() != new.is_partial()).then_some(new.is_partial());
    assert_eq!(diff.partial(), mode);
    assert_eq!(diff.is_empty(), one == other && mode.is_none());
    assert_eq!(applied(diff, &one), other);
    check_text(diff, &one, &other);
}

/// Applies a difference to the model of the old store.
fn applied(diff: &StoreDiff, old: &Model) -> Model {
    let mut model = old.clone();
    for entity in diff.removed() {
        assert!(model.remove(entity.uid()).is_some());
    }
    for change in diff.ancestry() {
        let ancestors = &mut model.get_mut(change.uid()).expect("a stored entity").ancestors;
        assert!(change.lost().all(|uid| ancestors.remove(uid)));
        assert!(change.gained().all(|uid| ancestors.insert(uid.clone())));
    }
    for change in diff.changed() {
        let entity = model.get_mut(change.after().uid()).expect("a stored entity");
        entity.content = plain(change.after()).content;
    }
    for entity in diff.added() {
        assert_eq!(model.insert(entity.uid().clone(), plain(entity)), None);
    }
    model
}

/// Checks that the text has a line for each entity and for each ancestor that only one store has.
fn check_text(diff: &StoreDiff, old: &Model, new: &Model) {
    let text = diff.to_string();
    let lines = |start: &str| text.lines().filter(|line| line.starts_with(start)).count();
    let (mut headers, mut lost, mut gained) = (0, 0, 0);
    for (uid, before) in old {
        let Some(after) = new.get(uid) else { continue };
        headers += usize::from(before != after);
        lost += before.ancestors.difference(&after.ancestors).count();
        gained += after.ancestors.difference(&before.ancestors).count();
    }
    let modes = usize::from(diff.partial().is_some());
    let (minus, plus) = (lines("-"), lines("+"));
    assert_eq!(minus - lines("-  "), diff.removed().len() + modes);
    assert_eq!(plus - lines("+  "), diff.added().len() + modes);
    assert_eq!(lines(" "), headers);
    assert_eq!((lines("-  ancestor "), lines("+  ancestor ")), (lost, gained));
    assert_eq!(text.is_empty(), diff.is_empty());
    assert!(text.is_empty() || text.ends_with('\n'));
}

/// Compares both differences of two stores, and that of each with itself, with the model.
fn check_both(old: &Entities, new: &Entities) {
    check(&old.diff(new), old, new);
    check(&new.diff(old), new, old);
    assert!(old.diff(old).is_empty() && new.diff(&new.clone()).is_empty());
}

fn drawn_fields(random: &mut Random) -> Vec<(String, cedar_store::ast::PartialValue)> {
    let keys = ["k", "key", "\u{e9}"];
    (0..random.below(3))
        .map(|_| {
            let value = i64::try_from(random.below(3)).expect("a small number");
            ((*random.choose(&keys)).to_owned(), Value::from(value).into())
        })
        .collect()
}

fn drawn_entity(random: &mut Random, count: usize, indirect: bool) -> Entity {
    drawn_with(random, count, indirect, drawn_fields)
}

fn drawn_list(random: &mut Random, count: usize, indirect: bool) -> Vec<Arc<Entity>> {
    let length = random.below(4);
    (0..length)
        .map(|_| Arc::new(drawn_entity(random, count, indirect)))
        .collect()
}

/// Returns a drawn store, created in a mode. Entities with a repeated uid are left out.
fn drawn_store(random: &mut Random, count: usize, mode: TCComputation, indirect: bool) -> Option<Entities> {
    let drawn: BTreeMap<EntityUID, Entity> = (0..random.below(count + 1))
        .map(|_| drawn_entity(random, count, indirect))
        .map(|entity| (entity.uid().clone(), entity))
        .collect();
    let store = Entities::from_entities(drawn.into_values(), mode).ok()?;
    Some(if random.one_in(4) { store.partial() } else { store })
}

fn drawn_mode(random: &mut Random) -> TCComputation {
    *random.choose(&[
        TCComputation::ComputeNow,
        TCComputation::AssumeAlreadyComputed,
        TCComputation::EnforceAlreadyComputed,
    ])
}

#[test]
fn differences_of_drawn_stores() {
    let mut random = Random::new(90);
    let mut differing = 0;
    for _ in 0..rounds(20_000) {
        let count = 1 + random.below(8);
        let indirect = random.one_in(3);
        let modes = (drawn_mode(&mut random), drawn_mode(&mut random));
        let Some(old) = drawn_store(&mut random, count, modes.0, indirect) else {
            continue;
        };
        let Some(new) = drawn_store(&mut random, count, modes.1, indirect) else {
            continue;
        };
        check_both(&old, &new);
        let uids: Vec<EntityUID> = (0..3).map(|_| drawn_uid(&mut random, count)).collect();
        check_both(&old, &slice(&old, &uids));
        check_both(&slice(&old, &uids), &slice(&new, &uids));
        check_both(&old, &old.clone().partial());
        differing += usize::from(!old.diff(&new).is_empty());
    }
    assert!(differing > 50, "{differing} pairs of stores differ");
}

/// Checks that a would-be change is what the edit then changes, or its error, and that the store has not changed.
fn check_edit(
    store: &Entities,
    expected: Result<Entities, EntitiesError>,
    found: Result<StoreDiff, EntitiesError>,
) -> Option<Entities> {
    match (expected, found) {
        (Ok(edited), Ok(diff)) => {
            check(&diff, store, &edited);
            Some(edited)
        }
        (Err(expected), Err(found)) => {
            // an edit may name any of several cycles
            if !matches!(expected, EntitiesError::TransitiveClosureError(_)) {
                assert_eq!(found, expected);
            }
            None
        }
        (expected, found) => panic!("{:?} but {:?}", expected.err(), found.err()),
    }
}

/// Tries an edit and makes it. Returns the store after it, if it succeeds.
fn drawn_edit(random: &mut Random, store: &Entities, count: usize, indirect: bool) -> Option<Entities> {
    let mode = drawn_mode(random);
    let before = model_of(store);
    let edited = match random.below(3) {
        0 => {
            let list = drawn_list(random, count, indirect);
            let found = store.would_change_by_add(list.clone(), mode);
            check_edit(store, store.clone().add_entities(list, mode), found)
        }
        1 => {
            let list = drawn_list(random, count, indirect);
            let found = store.would_change_by_upsert(list.clone(), mode);
            check_edit(store, store.clone().upsert_entities(list, mode), found)
        }
        _ => {
            let list: Vec<EntityUID> = (0..random.below(4)).map(|_| drawn_uid(random, count)).collect();
            let found = store.would_change_by_remove(list.clone(), mode);
            check_edit(store, store.clone().remove_entities(list, mode), found)
        }
    };
    assert_eq!(model_of(store), before);
    edited
}

#[test]
fn differences_of_drawn_edits() {
    let mut random = Random::new(91);
    let mut made = 0;
    for _ in 0..rounds(5_000) {
        let count = 1 + random.below(8);
        let indirect = random.one_in(3);
        let Some(first) = drawn_store(&mut random, count, TCComputation::AssumeAlreadyComputed, indirect) else {
            continue;
        };
        let mut store = first.clone();
        for _ in 0..4 {
            let Some(edited) = drawn_edit(&mut random, &store, count, indirect) else {
                continue;
            };
            store = edited;
            made += 1;
        }
        check_both(&first, &store);
    }
    assert!(made > 50, "{made} edits succeeded");
}

/// The stores have several chunks, of which they share most. Removals move entities to other places.
#[test]
fn differences_of_stores_that_share_most() {
    let mut random = Random::new(92);
    let size = 700;
    for _ in 0..rounds(100) {
        let chain = (0..size).map(|number| numbered(number, &[number + 1 + random.below(9)]));
        let first = Entities::from_entities(chain.collect::<Vec<_>>(), TCComputation::ComputeNow).unwrap();
        let mut store = first.clone();
        for _ in 0..6 {
            let number = random.below(size);
            store = match random.below(3) {
                0 => {
                    let entity = Arc::new(numbered(number, &[number + 1]));
                    let found = store.would_change_by_upsert([entity.clone()], TCComputation::ComputeNow);
                    let edited = store.clone().upsert_entities([entity], TCComputation::ComputeNow);
                    check_edit(&store, edited, found)
                }
                1 => {
                    let found = store.would_change_by_remove([node(number)], TCComputation::ComputeNow);
                    let edited = store.clone().remove_entities([node(number)], TCComputation::ComputeNow);
                    check_edit(&store, edited, found)
                }
                _ => {
                    let entity = Arc::new(numbered(size + number, &[number]));
                    let found = store.would_change_by_upsert([entity.clone()], TCComputation::ComputeNow);
                    let edited = store.clone().upsert_entities([entity], TCComputation::ComputeNow);
                    check_edit(&store, edited, found)
                }
            }
            .unwrap_or(store);
        }
        check_both(&first, &store);
        let rebuilt = Entities::from_entities(
            store.iter().cloned().collect::<Vec<_>>(),
            TCComputation::AssumeAlreadyComputed,
        );
        assert!(store.diff(&rebuilt.unwrap()).is_empty());
    }
}

#[test]
fn differences_of_deep_chains_and_of_hubs() {
    let size = 800;
    let chain = (0..size).map(|number| numbered(number, &[number + 1]));
    let chain = Entities::from_entities(chain, TCComputation::ComputeNow).unwrap();
    let cut = chain
        .would_change_by_remove([node(size - 1)], TCComputation::ComputeNow)
        .unwrap();
    assert_eq!(
        (cut.removed().len(), cut.changed().len(), cut.ancestry().len()),
        (1, 1, size - 1)
    );
    for change in cut.ancestry() {
        assert_eq!(change.gained().count(), 0);
        assert!(change.lost().eq([&node(size - 1), &node(size)]));
    }
    let size = 100_000;
    let hub = (0..size).map(|number| numbered(number, &[size]));
    let hub = Entities::from_entities(hub, TCComputation::ComputeNow).unwrap();
    let added = [Arc::new(numbered(size, &[size + 1]))];
    let diff = hub.would_change_by_add(added, TCComputation::ComputeNow).unwrap();
    assert_eq!(
        (diff.added().len(), diff.changed().len(), diff.ancestry().len()),
        (1, 0, size)
    );
    assert!(diff.ancestry().iter().enumerate().all(|(at, change)| {
        *change.uid() == node(at) && change.gained().eq([&node(size + 1)]) && change.lost().count() == 0
    }));
}

#[test]
fn the_text_of_a_difference() {
    let values = |number: i64| [("n".to_owned(), Value::from(number).into())];
    let entity = |name: &str, number, parents: &[&str], above: &[&str]| {
        let parents = parents.iter().map(|name| uid(name)).collect();
        let above = above.iter().map(|name| uid(name)).collect();
        Entity::new_with_attr_partial_value(uid(name), values(number), above, parents, values(number))
    };
    let mode = TCComputation::AssumeAlreadyComputed;
    let old = [
        entity("A::\"a\"", 1, &["A::\"b\""], &[]),
        entity("A::\"b\"", 1, &["A::\"x\""], &["A::\"y\""]),
        entity("A::\"c\"", 1, &["A::\"x\""], &[]),
        entity("A::\"d\"", 1, &[], &[]),
        entity("A::\"same\"", 1, &[], &[]),
    ];
    let new = [
        entity("A::\"a\"", 2, &["A::\"c\""], &[]),
        entity("A::\"b\"", 1, &["A::\"x\""], &["A::\"z\""]),
        entity("A::\"c\"", 1, &["A::\"x\""], &["A::\"x\""]),
        entity("A::\"e\"", 1, &[], &[]),
        entity("A::\"same\"", 1, &[], &[]),
    ];
    let old = Entities::from_entities(old, mode).unwrap();
    let new = Entities::from_entities(new, mode).unwrap().partial();
    let expected = r#"-concrete store
+partial store
 A::"a"
-  attr "n": 1
-  parent A::"b"
-  tag "n": 1
+  attr "n": 2
+  parent A::"c"
+  tag "n": 2
-  ancestor A::"b"
+  ancestor A::"c"
 A::"b"
-  ancestor A::"y"
+  ancestor A::"z"
 A::"c"
-  parent A::"x"
+  parent A::"x" (also an indirect ancestor)
-A::"d"
+A::"e"
"#;
    assert_eq!(old.diff(&new).to_string(), expected);
    assert_eq!(old.diff(&old.clone()).to_string(), "");
    check_both(&old, &new);
}

/// Prints the times of a difference after one edit of 100,000 entities, and of the plain model in the same run:
///
///     cargo test --release --test all diff::figures -- --ignored --nocapture
#[test]
#[ignore = "prints figures"]
fn figures() {
    let size = 100_000;
    let (teams, departments) = (1000, 10);
    let parents = |number| {
        if number < size - teams - departments {
            vec![size - teams - departments + number % teams]
        } else if number < size - departments {
            vec![size - departments + number % departments]
        } else {
            vec![]
        }
    };
    let all = (0..size).map(|number| numbered(number, &parents(number)));
    let store = Entities::from_entities(all, TCComputation::ComputeNow).unwrap();
    let leaf = Arc::new(numbered(7, &[size - teams]));
    let team = Arc::new(numbered(size - teams - departments, &[size - 1]));
    // the children are listed after some edits
    let mut store = store;
    for round in 0..40 {
        let moved = Arc::new(numbered(9, &[size - teams - departments + round]));
        store = store.upsert_entities([moved], TCComputation::ComputeNow).unwrap();
    }
    for (name, entity) in [("an entity without members", leaf), ("a team of 99 members", team)] {
        let start = Instant::now();
        let edited = store
            .clone()
            .upsert_entities([entity.clone()], TCComputation::ComputeNow)
            .unwrap();
        let edit = start.elapsed();
        let start = Instant::now();
        let diff = store.diff(&edited);
        let shared = start.elapsed();
        let start = Instant::now();
        let would = store
            .would_change_by_upsert([entity], TCComputation::ComputeNow)
            .unwrap();
        let trial = start.elapsed();
        assert_eq!(would.to_string(), diff.to_string());
        let apart = Entities::from_entities(
            edited.iter().cloned().collect::<Vec<_>>(),
            TCComputation::AssumeAlreadyComputed,
        );
        let apart = apart.unwrap();
        let start = Instant::now();
        assert_eq!(store.diff(&apart).to_string(), diff.to_string());
        let unshared = start.elapsed();
        let start = Instant::now();
        let (one, other) = (model_of(&store), model_of(&edited));
        let built = start.elapsed();
        let start = Instant::now();
        let changes = one
            .iter()
            .filter(|(uid, entity)| other.get(uid) != Some(entity))
            .count();
        let compared = start.elapsed();
        println!(
            "{name}: {} changed, {} with other ancestors; edit {edit:?}, diff {shared:?}, would_change {trial:?}, \
             diff of stores that share nothing {unshared:?}, plain model {changes} found in {compared:?} (built in {built:?})",
            diff.changed().len(),
            diff.ancestry().len(),
        );
    }
}
