//! A map and a set in insertion order. A removal takes constant time and keeps the order of the other entries.
//!
//! Each entry has the places of the previous and of the next entry in the order. A removal moves the last entry of the
//! table into the gap. Copies share their entries, as those of [`SharedMap`].
use super::ordered_map::OrderedMap;
use super::shared_map::SharedMap;
use super::shared_vec::SharedVec;
use std::borrow::Borrow;
use std::fmt;
use std::hash::{BuildHasher, Hash};
use std::iter::FusedIterator;
use std::mem;
use std::vec;

/// The place before the first entry and after the last one. No entry has it.
const END: usize = usize::MAX;

/// The value of an entry, with the places of the previous and of the next entry.
#[derive(Clone, Debug)]
struct Node<V> {
    value: V,
    before: usize,
    after: usize,
}

/// A map in insertion order of its keys.
#[derive(Clone)]
pub struct LinkedMap<K, V, S> {
    nodes: SharedMap<K, Node<V>, S>,
    first: usize,
    last: usize,
}

impl<K, V, S> LinkedMap<K, V, S> {
    pub fn with_hasher(hasher: S) -> Self {
        LinkedMap {
            nodes: SharedMap::with_hasher(hasher),
            first: END,
            last: END,
        }
    }

    pub fn hasher(&self) -> &S {
        self.nodes.hasher()
    }

    pub fn is_empty(&self) -> bool {
        self.nodes.is_empty()
    }

    pub fn keys(&self) -> Keys<'_, K, V> {
        Keys { inner: self.iter() }
    }

    pub fn values(&self) -> Values<'_, K, V> {
        Values { inner: self.iter() }
    }

    pub fn iter(&self) -> Iter<'_, K, V> {
        Iter {
            nodes: Some(self.nodes.entries()),
            at: self.first,
            remaining: self.nodes.len(),
        }
    }

    /// Returns the last entry, if there is one.
    pub fn last(&self) -> Option<(&K, &V)> {
        self.nodes.entry_at(self.last).map(|(key, node)| (key, &node.value))
    }
}

impl<K: Hash + Eq + Clone, V: Clone, S: BuildHasher> LinkedMap<K, V, S> {
    /// Consumes the map and iterates over the values.
    pub fn into_values(self) -> IntoValues<K, V> {
        IntoValues {
            inner: self.into_nodes().into_iter(),
        }
    }

    /// Returns the entries in their order.
    fn into_nodes(self) -> Vec<(K, Node<V>)> {
        let mut at = self.first;
        let mut nodes = self.nodes.into_entries();
        for rank in 0..nodes.len() {
            nodes[at].1.before = rank;
            at = nodes[at].1.after;
        }
        for place in 0..nodes.len() {
            while nodes[place].1.before != place {
                let rank = nodes[place].1.before;
                nodes.swap(place, rank);
            }
        }
        nodes
    }

    /// Sets the next place of an entry, or the place of the first entry.
    fn set_after(&mut self, at: usize, to: usize) {
        match self.nodes.value_at_mut(at) {
            None => self.first = to,
            Some(node) => node.after = to,
        }
    }

    /// Sets the previous place of an entry, or the place of the last entry.
    fn set_before(&mut self, at: usize, to: usize) {
        match self.nodes.value_at_mut(at) {
            None => self.last = to,
            Some(node) => node.before = to,
        }
    }

    /// Returns a mutable reference to the value at a place in the table, if there is one. A place is valid until the
    /// next removal.
    pub fn get_at_mut(&mut self, place: usize) -> Option<&mut V> {
        self.nodes.value_at_mut(place).map(|node| &mut node.value)
    }

    /// Reserves space for `additional` entries. Does nothing for one entry, because its insertion reserves the space.
    #[inline]
    pub fn reserve(&mut self, additional: usize) {
        if additional > 1 {
            self.nodes.reserve(additional);
        }
    }

    /// Appends the entries of a map with other keys, in their order.
    pub fn extend_new(&mut self, entries: OrderedMap<K, V, S>) {
        for (key, value) in entries {
            self.push(key, value);
        }
    }

    pub fn contains_key<Q: Hash + Eq + ?Sized>(&self, key: &Q) -> bool
    where
        K: Borrow<Q>,
    {
        self.nodes.contains_key(key)
    }

    pub fn get<Q: Hash + Eq + ?Sized>(&self, key: &Q) -> Option<&V>
    where
        K: Borrow<Q>,
    {
        self.nodes.get(key).map(|node| &node.value)
    }

    pub fn get_mut<Q: Hash + Eq + ?Sized>(&mut self, key: &Q) -> Option<&mut V>
    where
        K: Borrow<Q>,
    {
        self.nodes.get_mut(key).map(|node| &mut node.value)
    }

    /// Returns the value with this key and its place in the table. First compares the key at the place `next`, so that a
    /// lookup in the order of the map does not hash. If the key is found, `next` becomes the place of the next entry.
    pub fn get_near(&self, key: &K, next: &mut usize) -> Option<(usize, &V)> {
        let place = match self.nodes.entry_at(*next) {
            Some((near, _)) if near == key => *next,
            _ => self.nodes.place_of(key)?,
        };
        let (_, node) = self.nodes.entry_at(place)?;
        *next = node.after;
        Some((place, &node.value))
    }

    /// Appends an entry with a new key.
    pub fn push(&mut self, key: K, value: V) {
        let (place, before) = (self.nodes.len(), self.last);
        self.nodes.push(
            key,
            Node {
                value,
                before,
                after: END,
            },
        );
        self.set_after(before, place);
        self.last = place;
    }

    /// Inserts a value under a key, as the last one. If an equal key is present, replaces its value and returns the old
    /// one.
    pub fn insert(&mut self, key: K, value: V) -> Option<V> {
        match self.get_mut(&key) {
            Some(stored) => Some(mem::replace(stored, value)),
            None => {
                self.push(key, value);
                None
            }
        }
    }

    /// Removes a key, and returns its value.
    pub fn shift_remove<Q: Hash + Eq + ?Sized>(&mut self, key: &Q) -> Option<V>
    where
        K: Borrow<Q>,
    {
        let removed = self.nodes.swap_remove(key)?;
        Some(self.relinked(removed))
    }

    /// Removes a key, and returns its value. First compares the key at a place, which [`LinkedMap::get_near`] returned.
    pub fn shift_remove_near(&mut self, key: &K, place: usize) -> Option<V> {
        let removed = match self.nodes.entry_at(place) {
            Some((near, _)) if near == key => self.nodes.swap_remove_at(place)?,
            _ => self.nodes.swap_remove(key)?,
        };
        Some(self.relinked(removed))
    }

    /// Closes the order over a removed entry, given its place and its node. Returns its value.
    fn relinked(&mut self, (place, removed): (usize, Node<V>)) -> V {
        // the last entry of the table is at the place now, and its neighbours still have its old place
        let moved = self.nodes.len();
        let there = |at: usize| if at == moved { place } else { at };
        let (before, after) = (there(removed.before), there(removed.after));
        self.set_after(before, after);
        self.set_before(after, before);
        if place < moved {
            let (before, after) = self
                .nodes
                .entry_at(place)
                .map_or((END, END), |(_, node)| (node.before, node.after));
            self.set_after(before, place);
            self.set_before(after, place);
        }
        removed.value
    }
}

impl<K: fmt::Debug, V: fmt::Debug, S> fmt::Debug for LinkedMap<K, V, S> {
    fn fmt(&self, f: &mut fmt::Formatter<'_>) -> fmt::Result {
        f.debug_map().entries(self.iter()).finish()
    }
}

/// An iterator over the entries of a map, in their order.
#[derive(Debug)]
pub struct Iter<'a, K, V> {
    nodes: Option<&'a SharedVec<(K, Node<V>)>>,
    at: usize,
    remaining: usize,
}

impl<K, V> Clone for Iter<'_, K, V> {
    fn clone(&self) -> Self {
        Iter { ..*self }
    }
}

impl<'a, K, V> Iterator for Iter<'a, K, V> {
    type Item = (&'a K, &'a V);

    fn next(&mut self) -> Option<Self::Item> {
        let (key, node) = self.nodes?.get(self.at)?;
        self.at = node.after;
        self.remaining -= 1;
        Some((key, &node.value))
    }

    fn size_hint(&self) -> (usize, Option<usize>) {
        (self.remaining, Some(self.remaining))
    }
}

impl<K, V> ExactSizeIterator for Iter<'_, K, V> {}

impl<K, V> FusedIterator for Iter<'_, K, V> {}

/// An iterator over the keys of a map, or over the values of a set.
#[derive(Clone, Debug)]
pub struct Keys<'a, K, V> {
    inner: Iter<'a, K, V>,
}

impl<K, V> Keys<'_, K, V> {
    pub fn empty() -> Self {
        Keys {
            inner: Iter {
                nodes: None,
                at: END,
                remaining: 0,
            },
        }
    }
}

impl<'a, K, V> Iterator for Keys<'a, K, V> {
    type Item = &'a K;

    fn next(&mut self) -> Option<&'a K> {
        self.inner.next().map(|(key, _)| key)
    }

    fn size_hint(&self) -> (usize, Option<usize>) {
        self.inner.size_hint()
    }
}

impl<K, V> ExactSizeIterator for Keys<'_, K, V> {}

/// An iterator over the values of a map.
#[derive(Clone, Debug)]
pub struct Values<'a, K, V> {
    inner: Iter<'a, K, V>,
}

impl<'a, K, V> Iterator for Values<'a, K, V> {
    type Item = &'a V;

    fn next(&mut self) -> Option<&'a V> {
        self.inner.next().map(|(_, value)| value)
    }

    fn size_hint(&self) -> (usize, Option<usize>) {
        self.inner.size_hint()
    }
}

impl<K, V> ExactSizeIterator for Values<'_, K, V> {}

/// An iterator over the values of a map, which it consumes.
#[derive(Clone, Debug)]
pub struct IntoValues<K, V> {
    inner: vec::IntoIter<(K, Node<V>)>,
}

impl<K, V> Iterator for IntoValues<K, V> {
    type Item = V;

    fn next(&mut self) -> Option<V> {
        self.inner.next().map(|(_, node)| node.value)
    }

    fn size_hint(&self) -> (usize, Option<usize>) {
        self.inner.size_hint()
    }
}

impl<K, V> ExactSizeIterator for IntoValues<K, V> {}

/// A set in insertion order of its values.
#[derive(Clone)]
pub struct LinkedSet<T, S> {
    map: LinkedMap<T, (), S>,
}

impl<T, S> LinkedSet<T, S> {
    pub fn with_hasher(hasher: S) -> Self {
        LinkedSet {
            map: LinkedMap::with_hasher(hasher),
        }
    }

    pub fn len(&self) -> usize {
        self.map.nodes.len()
    }

    pub fn is_empty(&self) -> bool {
        self.map.is_empty()
    }

    pub fn iter(&self) -> Keys<'_, T, ()> {
        self.map.keys()
    }
}

impl<T: Hash + Eq + Clone, S: BuildHasher + Clone> LinkedSet<T, S> {
    pub fn reserve(&mut self, additional: usize) {
        self.map.reserve(additional);
    }

    pub fn insert(&mut self, value: T) -> bool {
        self.map.insert(value, ()).is_none()
    }

    /// Appends a value that the set does not contain.
    pub fn push(&mut self, value: T) {
        self.map.push(value, ());
    }

    pub fn shift_remove<Q: Hash + Eq + ?Sized>(&mut self, value: &Q) -> bool
    where
        T: Borrow<Q>,
    {
        self.map.shift_remove(value).is_some()
    }

    /// Inserts all values of another set at the end, and empties that set.
    pub fn append(&mut self, other: &mut Self) {
        let empty = LinkedMap::with_hasher(other.map.hasher().clone());
        for (value, _) in mem::replace(&mut other.map, empty).into_nodes() {
            self.insert(value);
        }
    }
}

impl<T: fmt::Debug, S> fmt::Debug for LinkedSet<T, S> {
    fn fmt(&self, f: &mut fmt::Formatter<'_>) -> fmt::Result {
        f.debug_set().entries(self.iter()).finish()
    }
}
