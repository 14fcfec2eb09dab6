//! Edge cases of stores. Each of them detects a mutant of the package.
mod common;

use cedar_store::ast::Entity;
use cedar_store::entities::{Entities, TCComputation};
use common::uid;
use std::sync::Arc;

#[test]
fn stores_with_equal_uids_and_modes_are_equal() {
    let store = |texts: &[&str]| {
        let entities = texts.iter().map(|text| Entity::with_uid(uid(text)));
        Entities::from_entities(entities, TCComputation::ComputeNow).unwrap()
    };
    let (one, other, more) = (
        store(&[r#"A::"a""#]),
        store(&[r#"A::"b""#]),
        store(&[r#"A::"a""#, r#"A::"b""#]),
    );
    assert!(one == one.clone());
    for different in [&other, &more, &one.clone().partial()] {
        assert!(one != *different);
        assert!(*different != one);
    }
}

/// Entities with indirect ancestors of their own: an edit must find affected entities by their ancestors, because a
/// search down from the uids would miss some.
#[test]
fn edits_find_entities_by_their_indirect_ancestors() {
    let name = |number: usize| uid(&format!(r#"A::"{number}""#));
    let entities: Vec<Entity> = (0..100)
        .map(|number| {
            let mut entity = Entity::with_uid(name(number));
            entity.add_parent(name(number + 1));
            // an ancestor that the parents do not imply
            entity.add_indirect_ancestor(name(500));
            entity
        })
        .collect();
    let mut store = Entities::from_entities(entities, TCComputation::ComputeNow).unwrap();
    // enough other edits that a plain store would list the children of each uid
    for number in 1_000..1_040 {
        let other = Arc::new(Entity::with_uid(name(number)));
        store = store.upsert_entities([other], TCComputation::ComputeNow).unwrap();
    }
    let mut parent = Entity::with_uid(name(500));
    parent.add_parent(name(501));
    store = store
        .upsert_entities([Arc::new(parent)], TCComputation::ComputeNow)
        .unwrap();
    let first = store.stored(&name(0)).expect("it is present");
    assert!(first.is_descendant_of(&name(501)), "{first}");
}
