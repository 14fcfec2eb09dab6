//! Implementations of `Debug` that write what those of cedar-policy-core write.
use crate::ast::{Annotations, PolicyID};
use crate::cedar_graph::HasCycle;
use crate::cedar_uid_sets::UidSet;
use crate::entities::Entities;
use std::fmt;

/// Writes `PolicyID("..")`.
impl fmt::Debug for PolicyID {
    fn fmt(&self, f: &mut fmt::Formatter<'_>) -> fmt::Result {
        f.debug_tuple("PolicyID").field(&self.as_ref()).finish()
    }
}

/// The entries of a map, as a map.
struct Entries<I>(I);

impl<K: fmt::Debug, V: fmt::Debug, I: Iterator<Item = (K, V)> + Clone> fmt::Debug for Entries<I> {
    fn fmt(&self, f: &mut fmt::Formatter<'_>) -> fmt::Result {
        f.debug_map().entries(self.0.clone()).finish()
    }
}

/// Writes `Annotations({..})`, with a map from keys to values.
impl fmt::Debug for Annotations {
    fn fmt(&self, f: &mut fmt::Formatter<'_>) -> fmt::Result {
        f.debug_tuple("Annotations").field(&Entries(self.iter())).finish()
    }
}

/// Writes `HasCycle { vertex_with_loop: .. }`.
impl<K: fmt::Debug> fmt::Debug for HasCycle<K> {
    fn fmt(&self, f: &mut fmt::Formatter<'_>) -> fmt::Result {
        f.debug_struct("HasCycle")
            .field("vertex_with_loop", self.vertex_with_loop())
            .finish()
    }
}

/// Writes the uids as a set, in ascending order.
impl fmt::Debug for UidSet {
    fn fmt(&self, f: &mut fmt::Formatter<'_>) -> fmt::Result {
        f.debug_set().entries(self.iter()).finish()
    }
}

/// Whether the absent entities of a store are unknown.
#[derive(Debug)]
enum Mode {
    Concrete,
    Partial,
}

/// Writes the map of the entities, in the order of the map, and whether absent entities are unknown.
impl<S> fmt::Debug for Entities<S> {
    fn fmt(&self, f: &mut fmt::Formatter<'_>) -> fmt::Result {
        let entries = self.entities.iter().map(|(uid, entity)| (uid.uid(), &*entity.0));
        let mode = if self.partial { Mode::Partial } else { Mode::Concrete };
        f.debug_struct("Entities")
            .field("entities", &Entries(entries))
            .field("mode", &mode)
            .finish()
    }
}
