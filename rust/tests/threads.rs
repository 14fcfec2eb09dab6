//! Threads can read shared stores and sets, and an edit by one thread is not visible to the others.
mod common;
#[path = "common/policies.rs"]
mod policies;

use cedar_store::ast::{Entity, EntityUID, Expr, Policy, PolicySet, Template, Value};
use cedar_store::entities::{Dereference, Entities, TCComputation};
use cedar_store::slice;
use common::{Random, id, principal};
use policies::{permit, principal_template};
use std::sync::{Arc, Barrier};
use std::thread;

const THREADS: usize = 16;
const ENTITIES: usize = 600;

fn assert_send_sync<T: Send + Sync>() {}

#[test]
fn threads_can_share_each_type() {
    assert_send_sync::<Entities>();
    assert_send_sync::<PolicySet>();
    assert_send_sync::<Entity>();
    assert_send_sync::<Policy>();
    assert_send_sync::<Template>();
    assert_send_sync::<Value>();
    assert_send_sync::<Expr>();
    assert_send_sync::<EntityUID>();
}

fn node(number: usize) -> EntityUID {
    EntityUID::with_eid_and_type("Node", &number.to_string()).unwrap()
}

fn tree() -> Entities {
    let entities = (0..ENTITIES).map(|number| {
        let mut entity = Entity::with_uid(node(number));
        if number > 0 {
            entity.add_parent(node((number - 1) / 3));
        }
        entity
    });
    Entities::from_entities(entities, TCComputation::ComputeNow).unwrap()
}

fn has_all_ancestors(store: &Entities, number: usize) -> bool {
    let Dereference::Data(entity) = store.entity(&node(number)) else {
        return false;
    };
    let mut ancestor = number;
    while ancestor > 0 {
        ancestor = (ancestor - 1) / 3;
        if !entity.is_descendant_of(&node(ancestor)) {
            return false;
        }
    }
    true
}

#[test]
fn threads_share_a_store_and_edit_copies() {
    let store = Arc::new(tree());
    let start = Barrier::new(THREADS);
    thread::scope(|scope| {
        for thread in 0..THREADS {
            let (store, start) = (Arc::clone(&store), &start);
            scope.spawn(move || {
                let mut random = Random::new(thread as u64);
                let mut copy = Entities::clone(&store);
                start.wait();
                for _ in 0..60 {
                    let number = random.below(ENTITIES);
                    assert!(has_all_ancestors(&store, number));
                    let removed = 1 + random.below(ENTITIES - 1);
                    copy = copy
                        .remove_entities([node(removed)], TCComputation::ComputeNow)
                        .unwrap();
                    assert!(matches!(copy.entity(&node(removed)), Dereference::NoSuchEntity));
                    let mut restored = Entity::with_uid(node(removed));
                    restored.add_parent(node((removed - 1) / 3));
                    copy = copy
                        .upsert_entities([Arc::new(restored)], TCComputation::ComputeNow)
                        .unwrap();
                    let sliced = slice(&store, &[node(number)]);
                    assert!(has_all_ancestors(&sliced, number));
                }
                assert_eq!(copy.len(), ENTITIES);
            });
        }
    });
    assert!((0..ENTITIES).all(|number| has_all_ancestors(&store, number)));
    assert!(store.deep_eq(&tree()));
}

#[test]
fn threads_share_a_policy_set_and_edit_copies() {
    let mut set = PolicySet::new();
    set.add_template(principal_template("t")).unwrap();
    for number in 0..50 {
        set.add_static(permit(&format!("s{number}"), None)).unwrap();
        set.link(id("t"), id(&format!("l{number}")), principal(node(number)))
            .unwrap();
    }
    let before = set.clone();
    let set = Arc::new(set);
    thread::scope(|scope| {
        for thread in 0..THREADS {
            let set = Arc::clone(&set);
            scope.spawn(move || {
                let mut copy = PolicySet::clone(&set);
                for number in 0..50 {
                    assert_eq!(
                        set.get(&id(&format!("l{number}"))).unwrap().env(),
                        &principal(node(number))
                    );
                    copy.unlink(&id(&format!("l{number}"))).unwrap();
                    copy.add_static(permit(&format!("of{thread} {number}"), None)).unwrap();
                }
                copy.remove_template(&id("t")).unwrap();
                copy.merge_policyset(&set, true).unwrap();
                assert_eq!(copy.policies().count(), 150);
            });
        }
    });
    assert_eq!(*set, before);
}

#[test]
fn store_moves_to_another_thread_and_back() {
    let store = tree();
    let store = thread::spawn(move || store.remove_entities([node(0)], TCComputation::ComputeNow).unwrap())
        .join()
        .unwrap();
    assert_eq!(store.len(), ENTITIES - 1);
}
