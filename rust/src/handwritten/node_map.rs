//! Maps of nodes and sets of keys, as the closures of graphs use them.
use super::shared_map::{SharedMap, SharedSet};
use std::collections::{HashMap, HashSet};
use std::hash::{BuildHasher, Hash};

/// A map from keys to nodes.
pub trait NodeMap<K, V, S> {
    fn hasher(&self) -> &S;

    fn get(&self, key: &K) -> Option<&V>;

    fn get_mut(&mut self, key: &K) -> Option<&mut V>;

    fn iter<'a>(&'a self) -> impl Iterator<Item = (&'a K, &'a V)>
    where
        K: 'a,
        V: 'a;

    fn values<'a>(&'a self) -> impl Iterator<Item = &'a V>
    where
        K: 'a,
        V: 'a,
    {
        self.iter().map(|(_, node)| node)
    }
}

impl<K: Hash + Eq, V, S: BuildHasher> NodeMap<K, V, S> for HashMap<K, V, S> {
    fn hasher(&self) -> &S {
        self.hasher()
    }

    fn get(&self, key: &K) -> Option<&V> {
        self.get(key)
    }

    fn get_mut(&mut self, key: &K) -> Option<&mut V> {
        self.get_mut(key)
    }

    fn iter<'a>(&'a self) -> impl Iterator<Item = (&'a K, &'a V)>
    where
        K: 'a,
        V: 'a,
    {
        self.iter()
    }
}

impl<K: Hash + Eq + Clone, V: Clone, S: BuildHasher> NodeMap<K, V, S> for SharedMap<K, V, S> {
    fn hasher(&self) -> &S {
        self.hasher()
    }

    fn get(&self, key: &K) -> Option<&V> {
        self.get(key)
    }

    fn get_mut(&mut self, key: &K) -> Option<&mut V> {
        self.get_mut(key)
    }

    fn iter<'a>(&'a self) -> impl Iterator<Item = (&'a K, &'a V)>
    where
        K: 'a,
        V: 'a,
    {
        self.iter()
    }
}

/// A set of keys.
pub trait KeySet<K> {
    fn iter<'a>(&'a self) -> impl Iterator<Item = &'a K>
    where
        K: 'a;
}

impl<K, S> KeySet<K> for HashSet<K, S> {
    fn iter<'a>(&'a self) -> impl Iterator<Item = &'a K>
    where
        K: 'a,
    {
        self.iter()
    }
}

impl<K, S> KeySet<K> for SharedSet<K, S> {
    fn iter<'a>(&'a self) -> impl Iterator<Item = &'a K>
    where
        K: 'a,
    {
        self.iter()
    }
}
