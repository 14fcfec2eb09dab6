//! The items of Rattle's std that the tests of the layer use. Allocations do not fail.

pub mod alloc {
    #[derive(Clone, Copy, Debug)]
    pub struct Global;

    #[derive(Clone, Copy, Debug, PartialEq, Eq)]
    pub struct AllocError;

    impl std::fmt::Display for AllocError {
        fn fmt(&self, f: &mut std::fmt::Formatter<'_>) -> std::fmt::Result {
            f.write_str("out of memory")
        }
    }

    impl std::error::Error for AllocError {}

    macro_rules! never {
        ($($t:ty),*) => {
            $(impl From<AllocError> for $t { fn from(_: AllocError) -> $t { unreachable!() } })*
        };
    }
    use crate::ast::*;
    use crate::entities::EntitiesError;
    use crate::program::{RunError, TalkError};
    never!(
        ActionTypesError,
        EntitiesError,
        ExprValidationError,
        LinkingError,
        ParseErrors,
        PolicySetError,
        PolicySetGetLinksError,
        PolicySetPolicyRemovalError,
        PolicySetTemplateRemovalError,
        PolicySetUnlinkError,
        PolicySetValidationError,
        RunError,
        TalkError,
        TemplateValidationError,
        UnexpectedSlotError,
        std::fmt::Error,
        std::io::Error
    );
    impl<K: std::fmt::Debug + std::fmt::Display> From<AllocError> for crate::transitive_closure::TcError<K> {
        fn from(_: AllocError) -> Self {
            unreachable!()
        }
    }
    impl From<std::fmt::Error> for AllocError {
        fn from(_: std::fmt::Error) -> AllocError {
            unreachable!()
        }
    }
}

pub mod test {
    pub struct Fail(String);

    impl Fail {
        pub fn new<D: std::fmt::Display>(why: D) -> Fail {
            Fail(why.to_string())
        }
    }

    impl std::fmt::Debug for Fail {
        fn fmt(&self, f: &mut std::fmt::Formatter<'_>) -> std::fmt::Result {
            f.write_str(&self.0)
        }
    }

    impl<E: std::error::Error> From<E> for Fail {
        fn from(error: E) -> Fail {
            Fail(error.to_string())
        }
    }
}

pub mod process {
    pub trait Abort {}
    impl Abort for super::HostRuntime {}
}

/// A replacement for the runtime of the process.
#[derive(Clone, Copy)]
pub struct HostRuntime;

impl HostRuntime {
    pub fn alloc(&self) -> alloc::Global {
        alloc::Global
    }
}

use alloc::{AllocError, Global};

/// The trait for nodes of the layer, which the nodes of the tests implement. The trait of the package is implemented by it.
pub trait TestNode<K: Eq> {
    fn get_key(&self, alloc: Global) -> Result<K, AllocError>;
    fn add_edge_to(&mut self, alloc: Global, k: K) -> Result<(), AllocError>;
    fn out_edges(&self, alloc: Global) -> Result<Vec<&K>, AllocError>;
    fn has_edge_to(&self, k: &K) -> bool;
    fn may_have_edges(&self) -> bool {
        true
    }
    fn reset_edges(&mut self, alloc: Global) -> Result<(), AllocError>;
    fn direct_edges(&self, alloc: Global) -> Result<Vec<&K>, AllocError> {
        self.out_edges(alloc)
    }
    fn list_edges<'a>(&'a self, alloc: Global, list: &mut Vec<&'a K>) -> Result<(), AllocError> {
        *list = self.out_edges(alloc)?;
        Ok(())
    }
    fn order(_alloc: Global, keys: &[K]) -> Result<Vec<usize>, AllocError> {
        Ok((0..keys.len()).collect())
    }
    fn add_edges_to(&mut self, alloc: Global, keys: &mut Vec<K>) -> Result<(), AllocError> {
        let row = std::mem::take(keys);
        for key in row {
            self.add_edge_to(alloc, key)?;
        }
        Ok(())
    }
    fn add_new_edges_to(&mut self, alloc: Global, keys: &mut Vec<K>) -> Result<(), AllocError> {
        self.add_edges_to(alloc, keys)
    }
}

impl<K: Eq, N: TestNode<K>> crate::transitive_closure::TCNode<K> for N {
    fn get_key(&self) -> K {
        TestNode::get_key(self, Global).unwrap()
    }
    fn add_edge_to(&mut self, k: K) {
        TestNode::add_edge_to(self, Global, k).unwrap()
    }
    fn out_edges(&self) -> Box<dyn Iterator<Item = &K> + '_> {
        Box::new(TestNode::out_edges(self, Global).unwrap().into_iter())
    }
    fn has_edge_to(&self, k: &K) -> bool {
        TestNode::has_edge_to(self, k)
    }
    fn may_have_edges(&self) -> bool {
        TestNode::may_have_edges(self)
    }
    fn reset_edges(&mut self) {
        TestNode::reset_edges(self, Global).unwrap()
    }
    fn direct_edges(&self) -> Box<dyn Iterator<Item = &K> + '_> {
        Box::new(TestNode::direct_edges(self, Global).unwrap().into_iter())
    }
    fn list_edges<'a>(&'a self, list: &mut Vec<&'a K>) {
        TestNode::list_edges(self, Global, list).unwrap()
    }
    fn order(keys: &[K]) -> Vec<usize> {
        <N as TestNode<K>>::order(Global, keys).unwrap()
    }
    fn add_edges_to(&mut self, keys: &mut Vec<K>) {
        TestNode::add_edges_to(self, Global, keys).unwrap()
    }
    fn add_new_edges_to(&mut self, keys: &mut Vec<K>) {
        TestNode::add_new_edges_to(self, Global, keys).unwrap()
    }
}

// The implementation for shared entities of the layer, which uses the one of the package.
use crate::ast::EntityUID;
use crate::cedar_entity::node::SharedEntity;
use crate::transitive_closure::TCNode;

impl TCNode<EntityUID> for SharedEntity {
    fn get_key(&self) -> EntityUID {
        TCNode::<EntityUID>::get_key(&self.0)
    }
    fn add_edge_to(&mut self, k: EntityUID) {
        self.0.add_edge_to(k)
    }
    fn out_edges(&self) -> Box<dyn Iterator<Item = &EntityUID> + '_> {
        TCNode::<EntityUID>::out_edges(&self.0)
    }
    fn has_edge_to(&self, k: &EntityUID) -> bool {
        self.0.has_edge_to(k)
    }
    fn may_have_edges(&self) -> bool {
        TCNode::<EntityUID>::may_have_edges(&self.0)
    }
    fn reset_edges(&mut self) {
        TCNode::<EntityUID>::reset_edges(&mut self.0)
    }
    fn direct_edges(&self) -> Box<dyn Iterator<Item = &EntityUID> + '_> {
        TCNode::<EntityUID>::direct_edges(&self.0)
    }
}

// Functions of ordered maps and of linked maps that a test of raw maps uses.
use crate::linked_map::{LinkedMap, LinkedSet};
use crate::ordered_map::{OrderedMap, OrderedSet};
use std::hash::{BuildHasher, Hash};

impl<K: Hash + Eq + Clone, V: Clone, S: BuildHasher + Clone> LinkedMap<K, V, S> {
    pub fn with_capacity_and_hasher(count: usize, hasher: S) -> Self {
        let mut map = LinkedMap::with_hasher(hasher);
        map.reserve(count);
        map
    }

    pub fn from_index_map(entries: OrderedMap<K, V, S>) -> Self {
        let mut map = LinkedMap::with_hasher(entries.hasher().clone());
        map.extend_new(entries);
        map
    }
}

impl<T: Hash + Eq + Clone, S: BuildHasher + Clone> LinkedSet<T, S> {
    pub fn from_index_set(values: OrderedSet<T, S>) -> Self {
        let mut set = LinkedSet::with_hasher(values.hasher().clone());
        for value in values {
            set.insert(value);
        }
        set
    }
}

impl<K: Hash + Eq, V, S: BuildHasher + Clone> OrderedMap<K, V, S> {
    pub fn retain<F: FnMut(&K, &mut V) -> bool>(&mut self, mut keeps: F) {
        let mut all = OrderedMap::with_hasher(self.hasher().clone());
        all.append(self);
        for (key, mut value) in all {
            if keeps(&key, &mut value) {
                self.insert(key, value);
            }
        }
    }
}

pub mod prelude {
    pub use super::HostRuntime;
    pub use super::alloc::{AllocError, Global};
    pub use crate::cedar_keyed_hash::KeyedState;
    pub use std::fmt::Write as _;
    pub use std::sync::Arc;
}
