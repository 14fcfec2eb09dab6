//! Dry runs of edits over random plain stores: each returns an error exactly if the edit does, and for the same reason.
mod common;

use cedar_store::ast::{Entity, EntityUID};
use cedar_store::entities::{Entities, EntitiesError, TCComputation};
use cedar_store::{have_no_indirect, would_add, would_upsert};
use common::{Random, child, with_eid};
use std::sync::Arc;

/// The reason of an error: the uid of a duplicate, or a cycle.
#[derive(Debug, PartialEq)]
enum Reason {
    Duplicate(EntityUID),
    Cycle,
}

fn reason(error: EntitiesError) -> Reason {
    match error {
        EntitiesError::Duplicate(uid) => Reason::Duplicate(uid),
        EntitiesError::TransitiveClosureError(_) => Reason::Cycle,
        other => panic!("{other}"),
    }
}

/// Returns up to four entities, each with up to two parents, all of few uids. Every kind of error occurs.
fn list(random: &mut Random, uids: usize) -> Vec<Arc<Entity>> {
    (0..random.below(4))
        .map(|_| {
            let eid = random.below(uids).to_string();
            let parents: Vec<String> = (0..random.below(3)).map(|_| random.below(uids).to_string()).collect();
            let parents: Vec<&str> = parents.iter().map(String::as_str).collect();
            Arc::new(child(&eid, &parents))
        })
        .collect()
}

#[test]
fn a_dry_run_returns_the_error_of_the_edit() {
    let (mut edits, mut duplicates, mut cycles) = (0, 0, 0);
    for seed in 0..400 {
        let mut random = Random::new(seed);
        let mut store = Entities::new();
        for _ in 0..12 {
            let list = list(&mut random, 7);
            assert!(have_no_indirect(&list));
            let (before, now) = (store.clone(), TCComputation::ComputeNow);
            let is_upsert = random.below(2) == 0;
            let (dry_run, edited) = if is_upsert {
                (would_upsert(&store, &list), store.upsert_entities(list, now))
            } else {
                (would_add(&store, &list), store.add_entities(list, now))
            };
            let dry_run = dry_run.map_err(reason);
            match edited {
                Ok(next) => {
                    assert_eq!(dry_run, Ok(()));
                    (store, edits) = (next, edits + 1);
                }
                Err(error) => {
                    let reason = reason(error);
                    match reason {
                        Reason::Duplicate(_) => duplicates += 1,
                        Reason::Cycle => cycles += 1,
                    }
                    assert_eq!(dry_run, Err(reason));
                    store = before;
                }
            }
        }
    }
    assert!(
        edits > 1000 && duplicates > 100 && cycles > 100,
        "{edits} {duplicates} {cycles}"
    );
}

#[test]
fn have_no_indirect_detects_an_indirect_ancestor() {
    let mut entity = child("1", &["2"]);
    entity.add_indirect_ancestor(with_eid("3"));
    assert!(!have_no_indirect(&[Arc::new(child("4", &[])), Arc::new(entity)]));
}
