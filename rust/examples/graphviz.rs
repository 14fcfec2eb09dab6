//! Draws the hierarchy of a store: `cargo run --example graphviz | dot -Tsvg > store.svg`. A parent that is not an entity
//! of the store is dotted.
use cedar_store::ast::{Entity, EntityUID};
use cedar_store::entities::{Entities, TCComputation};
use std::error::Error;

fn entity(own: &str, parents: &[&str]) -> Result<Entity, Box<dyn Error>> {
    let mut entity = Entity::with_uid(EntityUID::from_normalized_str(own)?);
    for parent in parents {
        entity.add_parent(EntityUID::from_normalized_str(parent)?);
    }
    Ok(entity)
}

fn main() -> Result<(), Box<dyn Error>> {
    let store = Entities::from_entities(
        [
            entity(r#"User::"alice""#, &[r#"Group::"admins""#, r#"Group::"writers""#])?,
            entity(r#"User::"bob""#, &[r#"Group::"writers""#])?,
            entity(r#"Group::"admins""#, &[r#"Group::"staff""#])?,
            entity(r#"Group::"writers""#, &[r#"Group::"staff""#])?,
        ],
        TCComputation::ComputeNow,
    )?;
    print!("{}", store.to_dot());
    Ok(())
}
