//! One store that is read by several threads, while each edits a copy. Copies share entities, and an edit of a copy
//! does not affect any other copy.
use cedar_store::ast::{Entity, EntityUID};
use cedar_store::entities::{Dereference, Entities, TCComputation};
use std::error::Error;
use std::sync::Arc;
use std::thread;

const LEVELS: usize = 200;

fn node(number: usize) -> EntityUID {
    EntityUID::with_eid_and_type("Node", &number.to_string()).expect("a valid entity type")
}

/// Returns the number of ancestors of the entity without children.
fn ancestor_count(store: &Entities) -> usize {
    match store.entity(&node(0)) {
        Dereference::Data(entity) => entity.ancestors().count(),
        Dereference::NoSuchEntity | Dereference::Residual(_) => 0,
    }
}

fn main() -> Result<(), Box<dyn Error>> {
    let chain = (0..LEVELS).map(|number| {
        let mut entity = Entity::with_uid(node(number));
        entity.add_parent(node(number + 1));
        entity
    });
    let store = Arc::new(Entities::from_entities(chain, TCComputation::ComputeNow)?);
    let counts: Vec<(usize, usize)> = thread::scope(|scope| {
        let handles: Vec<_> = (1..=8)
            .map(|number| {
                let store = Arc::clone(&store);
                scope.spawn(move || {
                    let copy = Entities::clone(&store);
                    let copy = copy
                        .remove_entities([node(number * 20)], TCComputation::ComputeNow)
                        .expect("the removal succeeds");
                    (ancestor_count(&store), ancestor_count(&copy))
                })
            })
            .collect();
        handles
            .into_iter()
            .map(|thread| thread.join().expect("the thread succeeds"))
            .collect()
    });
    for (number, (shared, copy)) in counts.iter().enumerate() {
        println!("thread {number}: {shared} ancestors in the shared store, {copy} in its own copy");
    }
    Ok(())
}
