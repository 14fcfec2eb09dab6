//! A map and a set in insertion order whose copies share their entries.
//!
//! The entries are in a vector in chunks, and a hash table has their places. A copy costs O(n / 128) for n entries. A
//! change of a copy costs what it changes, and one copy of a chunk in addition.
use super::shared_vec::{self, SharedVec};
use super::slots::Slots;
use std::borrow::Borrow;
use std::fmt;
use std::hash::{BuildHasher, Hash};
use std::iter::FusedIterator;
use std::mem;

/// A map with at most this many entries has no hash table, because comparing all keys costs less.
const FEW: usize = 8;

/// A map in insertion order of its keys. A removal moves the last entry into the gap.
#[derive(Clone)]
pub struct SharedMap<K, V, S> {
    entries: SharedVec<(K, V)>,
    slots: Slots,
    hasher: S,
}

impl<K, V, S> SharedMap<K, V, S> {
    pub fn with_hasher(hasher: S) -> Self {
        SharedMap {
            entries: SharedVec::new(),
            slots: Slots::default(),
            hasher,
        }
    }

    pub fn hasher(&self) -> &S {
        &self.hasher
    }

    pub fn len(&self) -> usize {
        self.entries.len()
    }

    pub fn is_empty(&self) -> bool {
        self.entries.is_empty()
    }

    pub fn iter(&self) -> Iter<'_, K, V> {
        Iter {
            inner: self.entries.iter(),
        }
    }

    pub fn keys(&self) -> Keys<'_, K, V> {
        Keys { inner: self.iter() }
    }

    pub fn values(&self) -> impl ExactSizeIterator<Item = &V> {
        self.entries.iter().map(|(_, value)| value)
    }

    /// Iterates over the entries, without those that `is_same` finds in the same place of `other`. Skips what both share.
    pub fn entries_unshared<'a>(
        &'a self,
        other: &'a Self,
        is_same: impl Fn(&(K, V), &(K, V)) -> bool + Copy + 'a,
    ) -> impl Iterator<Item = &'a (K, V)> {
        self.entries.iter_unshared(&other.entries, is_same)
    }

    /// Returns the entries, in the order of their places.
    pub(super) fn entries(&self) -> &SharedVec<(K, V)> {
        &self.entries
    }

    /// Returns the entry at a place. A place is valid until the next removal.
    pub(super) fn entry_at(&self, place: usize) -> Option<&(K, V)> {
        self.entries.get(place)
    }
}

impl<K: Hash + Eq, V, S: BuildHasher> SharedMap<K, V, S> {
    /// Returns the hash of a key. If there is no hash table, it is not used and not computed.
    #[inline]
    fn hash_of<Q: Hash + ?Sized>(&self, key: &Q) -> u64 {
        if self.slots.is_empty() {
            return 0;
        }
        self.hasher.hash_one(key)
    }

    /// Returns the place and the value of a key with this hash.
    #[inline]
    fn find<Q: Eq + ?Sized>(&self, hash: u64, key: &Q) -> Option<(usize, &V)>
    where
        K: Borrow<Q>,
    {
        if self.slots.is_empty() {
            let mut entries = self.entries.iter().enumerate();
            return entries.find_map(|(place, (other, value))| (other.borrow() == key).then_some((place, value)));
        }
        self.slots.find(hash, |place| {
            let (other, value) = self.entries.get(place)?;
            (other.borrow() == key).then_some((place, value))
        })
    }

    /// Returns the place of a key.
    pub(super) fn place_of<Q: Hash + Eq + ?Sized>(&self, key: &Q) -> Option<usize>
    where
        K: Borrow<Q>,
    {
        self.find(self.hash_of(key), key).map(|(place, _)| place)
    }

    pub fn get<Q: Hash + Eq + ?Sized>(&self, key: &Q) -> Option<&V>
    where
        K: Borrow<Q>,
    {
        self.find(self.hash_of(key), key).map(|(_, value)| value)
    }

    pub fn contains_key<Q: Hash + Eq + ?Sized>(&self, key: &Q) -> bool
    where
        K: Borrow<Q>,
    {
        self.place_of(key).is_some()
    }
}

impl<K: Hash + Eq + Clone, V: Clone, S: BuildHasher> SharedMap<K, V, S> {
    pub fn reserve(&mut self, additional: usize) {
        let count = self.len() + additional;
        self.entries.reserve(additional);
        if !self.slots.is_empty() {
            self.slots.reserve(additional);
        } else if count > FEW {
            self.list_places(count);
        }
    }

    /// Creates the hash table, with room for `count` places.
    fn list_places(&mut self, count: usize) {
        self.slots.reserve(count);
        for (place, (key, _)) in self.entries.iter().enumerate() {
            self.slots.insert(self.hasher.hash_one(key), place);
        }
    }

    pub fn get_mut<Q: Hash + Eq + ?Sized>(&mut self, key: &Q) -> Option<&mut V>
    where
        K: Borrow<Q>,
    {
        let place = self.place_of(key)?;
        self.value_at_mut(place)
    }

    pub(super) fn value_at_mut(&mut self, place: usize) -> Option<&mut V> {
        self.entries.get_mut(place).map(|(_, value)| value)
    }

    /// Appends an entry with a new key. `hash` is its hash, or any number if there is no hash table.
    fn push_hashed(&mut self, hash: u64, key: K, value: V) {
        self.entries.push((key, value));
        let count = self.len();
        if !self.slots.is_empty() {
            self.slots.insert(hash, count - 1);
        } else if count > FEW {
            self.list_places(count);
        }
    }

    /// Appends an entry with a new key.
    pub fn push(&mut self, key: K, value: V) {
        self.push_hashed(self.hash_of(&key), key, value);
    }

    /// Inserts a value under a key, as the last one. If an equal key is present, replaces its value and returns the old
    /// one.
    pub fn insert(&mut self, key: K, value: V) -> Option<V> {
        match self.try_insert(key, value) {
            Ok(()) => None,
            Err((place, value)) => self.value_at_mut(place).map(|stored| mem::replace(stored, value)),
        }
    }

    /// Inserts a value under a new key, as the last one. If an equal key is present, returns its place and the value.
    fn try_insert(&mut self, key: K, value: V) -> Result<(), (usize, V)> {
        let hash = self.hash_of(&key);
        match self.find(hash, &key).map(|(place, _)| place) {
            Some(place) => Err((place, value)),
            None => {
                self.push_hashed(hash, key, value);
                Ok(())
            }
        }
    }

    /// Inserts a value under a new key, as the last one. If an equal key is present, returns its value and the new one.
    pub fn insert_new(&mut self, key: K, value: V) -> Option<(&V, V)> {
        let (place, value) = self.try_insert(key, value).err()?;
        self.entries.get(place).map(|(_, stored)| (stored, value))
    }

    pub fn remove<Q: Hash + Eq + ?Sized>(&mut self, key: &Q) -> Option<V>
    where
        K: Borrow<Q>,
    {
        self.swap_remove(key).map(|(_, value)| value)
    }

    /// Removes a key. Returns its place, which the last entry gets, and its value.
    pub(super) fn swap_remove<Q: Hash + Eq + ?Sized>(&mut self, key: &Q) -> Option<(usize, V)>
    where
        K: Borrow<Q>,
    {
        let hash = self.hash_of(key);
        let (place, _) = self.find(hash, key)?;
        self.swap_remove_hashed(hash, place)
    }

    /// Removes the key at a place, which the last entry gets. Returns the place and the value.
    pub(super) fn swap_remove_at(&mut self, place: usize) -> Option<(usize, V)> {
        let (key, _) = self.entries.get(place)?;
        self.swap_remove_hashed(self.hash_of(key), place)
    }

    /// Removes the key at a place. `hash` is its hash, or any number if there is no hash table.
    fn swap_remove_hashed(&mut self, hash: u64, place: usize) -> Option<(usize, V)> {
        if !self.slots.is_empty() {
            self.slots.remove(hash, place);
            let last = self.len() - 1;
            if place < last {
                if let Some((moved, _)) = self.entries.get(last) {
                    self.slots.replace(self.hasher.hash_one(moved), last, place);
                }
            }
        }
        self.entries.swap_remove(place).map(|(_, value)| (place, value))
    }

    /// Returns the entries in one vector, in the order of their places.
    pub(super) fn into_entries(self) -> Vec<(K, V)> {
        self.entries.into_vec()
    }
}

impl<K: fmt::Debug, V: fmt::Debug, S> fmt::Debug for SharedMap<K, V, S> {
    fn fmt(&self, f: &mut fmt::Formatter<'_>) -> fmt::Result {
        f.debug_map().entries(self.iter()).finish()
    }
}

impl<'a, K, V, S> IntoIterator for &'a SharedMap<K, V, S> {
    type Item = (&'a K, &'a V);
    type IntoIter = Iter<'a, K, V>;

    fn into_iter(self) -> Iter<'a, K, V> {
        self.iter()
    }
}

impl<K: Clone, V: Clone, S> IntoIterator for SharedMap<K, V, S> {
    type Item = (K, V);
    type IntoIter = IntoIter<K, V>;

    fn into_iter(self) -> IntoIter<K, V> {
        IntoIter {
            inner: self.entries.into_iter(),
        }
    }
}

/// An iterator over the entries of a map, in their order.
#[derive(Debug)]
pub struct Iter<'a, K, V> {
    inner: shared_vec::Iter<'a, (K, V)>,
}

impl<K, V> Clone for Iter<'_, K, V> {
    fn clone(&self) -> Self {
        Iter {
            inner: self.inner.clone(),
        }
    }
}

impl<'a, K, V> Iterator for Iter<'a, K, V> {
    type Item = (&'a K, &'a V);

    #[inline]
    fn next(&mut self) -> Option<Self::Item> {
        self.inner.next().map(|(key, value)| (key, value))
    }

    fn size_hint(&self) -> (usize, Option<usize>) {
        self.inner.size_hint()
    }
}

impl<K, V> ExactSizeIterator for Iter<'_, K, V> {}

impl<K, V> FusedIterator for Iter<'_, K, V> {}

/// An iterator over the keys of a map, or over the values of a set.
#[derive(Debug)]
pub struct Keys<'a, K, V> {
    inner: Iter<'a, K, V>,
}

impl<K, V> Clone for Keys<'_, K, V> {
    fn clone(&self) -> Self {
        Keys {
            inner: self.inner.clone(),
        }
    }
}

impl<'a, K, V> Iterator for Keys<'a, K, V> {
    type Item = &'a K;

    #[inline]
    fn next(&mut self) -> Option<&'a K> {
        self.inner.next().map(|(key, _)| key)
    }

    fn size_hint(&self) -> (usize, Option<usize>) {
        self.inner.size_hint()
    }
}

impl<K, V> ExactSizeIterator for Keys<'_, K, V> {}

/// An iterator over the entries of a map, which it consumes.
#[derive(Debug)]
pub struct IntoIter<K, V> {
    inner: shared_vec::IntoIter<(K, V)>,
}

impl<K: Clone, V: Clone> Iterator for IntoIter<K, V> {
    type Item = (K, V);

    fn next(&mut self) -> Option<(K, V)> {
        self.inner.next()
    }

    fn size_hint(&self) -> (usize, Option<usize>) {
        self.inner.size_hint()
    }
}

impl<K: Clone, V: Clone> ExactSizeIterator for IntoIter<K, V> {}

impl<K: Clone, V: Clone> FusedIterator for IntoIter<K, V> {}

/// A set in insertion order of its values. A removal moves the last value into the gap.
#[derive(Clone)]
pub struct SharedSet<T, S> {
    map: SharedMap<T, (), S>,
}

impl<T, S> SharedSet<T, S> {
    pub fn with_hasher(hasher: S) -> Self {
        SharedSet {
            map: SharedMap::with_hasher(hasher),
        }
    }

    pub fn hasher(&self) -> &S {
        self.map.hasher()
    }

    pub fn len(&self) -> usize {
        self.map.len()
    }

    pub fn is_empty(&self) -> bool {
        self.map.is_empty()
    }

    pub fn iter(&self) -> Keys<'_, T, ()> {
        self.map.keys()
    }
}

impl<T: Hash + Eq + Clone, S: BuildHasher> SharedSet<T, S> {
    pub fn contains<Q: Hash + Eq + ?Sized>(&self, value: &Q) -> bool
    where
        T: Borrow<Q>,
    {
        self.map.contains_key(value)
    }

    pub fn insert(&mut self, value: T) -> bool {
        self.map.try_insert(value, ()).is_ok()
    }

    pub fn remove<Q: Hash + Eq + ?Sized>(&mut self, value: &Q) -> bool
    where
        T: Borrow<Q>,
    {
        self.map.swap_remove(value).is_some()
    }
}

impl<T: fmt::Debug, S> fmt::Debug for SharedSet<T, S> {
    fn fmt(&self, f: &mut fmt::Formatter<'_>) -> fmt::Result {
        f.debug_set().entries(self.iter()).finish()
    }
}

impl<'a, T, S> IntoIterator for &'a SharedSet<T, S> {
    type Item = &'a T;
    type IntoIter = Keys<'a, T, ()>;

    fn into_iter(self) -> Keys<'a, T, ()> {
        self.iter()
    }
}
