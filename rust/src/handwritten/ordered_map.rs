//! Maps and sets in insertion order: keys and values in columns, and a hash table of indexes.
use std::borrow::Borrow;
use std::fmt;
use std::hash::{BuildHasher, Hash};
use std::mem;
use std::ops::Index;
use std::slice;
use std::vec;

/// Marks a free slot.
const FREE: i32 = -1;

/// A hash table of the indexes of keys. It uses open addressing and is at most half full. It also stores the hash of
/// each key.
#[derive(Clone, Default)]
struct Places {
    slots: Vec<i32>,
    hashes: Vec<u64>,
}

impl Places {
    fn with_capacity(count: usize) -> Self {
        let mut places = Places::default();
        places.reserve(count);
        places
    }

    fn reserve(&mut self, additional: usize) {
        self.hashes.reserve(additional);
        let need = (self.hashes.len() + additional) * 2;
        if need > self.slots.len() {
            assert!(i32::try_from(need / 2).is_ok(), "too many keys");
            self.fill(need.next_power_of_two());
        }
    }

    fn fill(&mut self, size: usize) {
        self.slots.clear();
        self.slots.resize(size, FREE);
        for place in 0..self.hashes.len() {
            self.put(place);
        }
    }

    /// Returns the slot at which the search for a hash begins.
    fn home(&self, hash: u64) -> usize {
        (hash.wrapping_mul(0x9E37_79B9_7F4A_7C15) >> 32) as usize & (self.slots.len() - 1)
    }

    fn put(&mut self, place: usize) {
        let mut at = self.home(self.hashes[place]);
        while self.slots[at] != FREE {
            at = (at + 1) & (self.slots.len() - 1);
        }
        self.slots[at] = place as i32;
    }

    /// Returns the slot of the key with this hash for which `is_key` returns true.
    fn find(&self, hash: u64, is_key: impl Fn(usize) -> bool) -> Option<usize> {
        if self.slots.is_empty() {
            return None;
        }
        let mut at = self.home(hash);
        loop {
            let held = self.slots[at];
            if held == FREE {
                return None;
            }
            let place = held as usize;
            if self.hashes[place] == hash && is_key(place) {
                return Some(at);
            }
            at = (at + 1) & (self.slots.len() - 1);
        }
    }

    /// Returns the index of the key with this hash for which `is_key` returns true.
    fn get(&self, hash: u64, is_key: impl Fn(usize) -> bool) -> Option<usize> {
        self.find(hash, is_key).map(|slot| self.slots[slot] as usize)
    }

    fn push(&mut self, hash: u64) {
        if (self.hashes.len() + 1) * 2 > self.slots.len() {
            self.reserve(1);
        }
        self.hashes.push(hash);
        self.put(self.hashes.len() - 1);
    }

    /// Returns the slot of an index.
    fn slot_of(&self, place: usize) -> usize {
        let mut at = self.home(self.hashes[place]);
        while self.slots[at] != place as i32 {
            at = (at + 1) & (self.slots.len() - 1);
        }
        at
    }

    /// Frees a slot. Later indexes of the same search move up.
    fn free(&mut self, slot: usize) {
        let mask = self.slots.len() - 1;
        let mut free = slot;
        let mut next = free;
        loop {
            next = (next + 1) & mask;
            let held = self.slots[next];
            if held == FREE {
                break;
            }
            let home = self.home(self.hashes[held as usize]);
            if (next.wrapping_sub(home) & mask) >= (next.wrapping_sub(free) & mask) {
                self.slots[free] = held;
                free = next;
            }
        }
        self.slots[free] = FREE;
    }

    /// Removes an index. Each greater index decreases by one.
    fn remove(&mut self, place: usize) {
        self.free(self.slot_of(place));
        self.hashes.remove(place);
        if place < self.hashes.len() {
            let place = place as i32;
            for slot in &mut self.slots {
                *slot -= i32::from(*slot > place);
            }
        }
    }

    fn clear(&mut self) {
        self.slots.fill(FREE);
        self.hashes.clear();
    }
}

/// A set of keys in insertion order.
#[derive(Clone)]
pub struct OrderedSet<K, S> {
    keys: Vec<K>,
    places: Places,
    hasher: S,
}

impl<K, S> OrderedSet<K, S> {
    pub fn with_hasher(hasher: S) -> Self {
        OrderedSet {
            keys: Vec::new(),
            places: Places::default(),
            hasher,
        }
    }

    pub fn with_capacity_and_hasher(count: usize, hasher: S) -> Self {
        OrderedSet {
            keys: Vec::with_capacity(count),
            places: Places::with_capacity(count),
            hasher,
        }
    }

    pub fn as_slice(&self) -> &[K] {
        &self.keys
    }

    pub fn len(&self) -> usize {
        self.keys.len()
    }

    pub fn is_empty(&self) -> bool {
        self.keys.is_empty()
    }

    pub fn iter(&self) -> slice::Iter<'_, K> {
        self.keys.iter()
    }

    pub fn hasher(&self) -> &S {
        &self.hasher
    }
}

impl<K: Hash + Eq, S: BuildHasher> OrderedSet<K, S> {
    pub fn reserve(&mut self, additional: usize) {
        self.places.reserve(additional);
        self.keys.reserve(additional);
    }

    pub fn get_index_of<Q: Hash + Eq + ?Sized>(&self, key: &Q) -> Option<usize>
    where
        K: Borrow<Q>,
    {
        self.places
            .get(self.hasher.hash_one(key), |place| self.keys[place].borrow() == key)
    }

    pub fn contains<Q: Hash + Eq + ?Sized>(&self, key: &Q) -> bool
    where
        K: Borrow<Q>,
    {
        self.get_index_of(key).is_some()
    }

    /// Inserts a key as the last one, unless an equal key is present. Returns the index of the key, and whether it is
    /// new.
    pub fn insert_full(&mut self, key: K) -> (usize, bool) {
        let hash = self.hasher.hash_one(&key);
        if let Some(place) = self.places.get(hash, |place| self.keys[place] == key) {
            return (place, false);
        }
        let place = self.keys.len();
        self.places.push(hash);
        self.keys.push(key);
        (place, true)
    }

    pub fn insert(&mut self, key: K) -> bool {
        self.insert_full(key).1
    }

    /// Removes a key. The later keys move up.
    pub fn shift_remove<Q: Hash + Eq + ?Sized>(&mut self, key: &Q) -> bool
    where
        K: Borrow<Q>,
    {
        let Some(place) = self.get_index_of(key) else {
            return false;
        };
        self.places.remove(place);
        self.keys.remove(place);
        true
    }

    pub fn clear(&mut self) {
        self.places.clear();
        self.keys.clear();
    }

    /// Inserts all keys of another set at the end, and empties that set.
    pub fn append(&mut self, other: &mut Self) {
        let keys = mem::take(&mut other.keys);
        other.clear();
        for key in keys {
            self.insert(key);
        }
    }
}

impl<K, S> IntoIterator for OrderedSet<K, S> {
    type Item = K;
    type IntoIter = vec::IntoIter<K>;

    fn into_iter(self) -> Self::IntoIter {
        self.keys.into_iter()
    }
}

impl<'a, K, S> IntoIterator for &'a OrderedSet<K, S> {
    type Item = &'a K;
    type IntoIter = slice::Iter<'a, K>;

    fn into_iter(self) -> Self::IntoIter {
        self.iter()
    }
}

impl<K, S> Index<usize> for OrderedSet<K, S> {
    type Output = K;

    fn index(&self, place: usize) -> &K {
        &self.keys[place]
    }
}

impl<K: fmt::Debug, S> fmt::Debug for OrderedSet<K, S> {
    fn fmt(&self, f: &mut fmt::Formatter<'_>) -> fmt::Result {
        f.debug_set().entries(&self.keys).finish()
    }
}

/// A map in insertion order of its keys.
#[derive(Clone)]
pub struct OrderedMap<K, V, S> {
    keys: OrderedSet<K, S>,
    values: Vec<V>,
}

impl<K, V, S> OrderedMap<K, V, S> {
    pub fn with_hasher(hasher: S) -> Self {
        OrderedMap {
            keys: OrderedSet::with_hasher(hasher),
            values: Vec::new(),
        }
    }

    pub fn with_capacity_and_hasher(count: usize, hasher: S) -> Self {
        OrderedMap {
            keys: OrderedSet::with_capacity_and_hasher(count, hasher),
            values: Vec::with_capacity(count),
        }
    }

    pub fn len(&self) -> usize {
        self.values.len()
    }

    pub fn is_empty(&self) -> bool {
        self.values.is_empty()
    }

    pub fn hasher(&self) -> &S {
        self.keys.hasher()
    }

    pub fn iter(&self) -> Pairs<'_, K, V> {
        self.keys.iter().zip(&self.values)
    }

    pub fn values(&self) -> &[V] {
        &self.values
    }
}

impl<K: Hash + Eq, V, S: BuildHasher> OrderedMap<K, V, S> {
    pub fn reserve(&mut self, additional: usize) {
        self.keys.reserve(additional);
        self.values.reserve(additional);
    }

    pub fn contains_key<Q: Hash + Eq + ?Sized>(&self, key: &Q) -> bool
    where
        K: Borrow<Q>,
    {
        self.keys.contains(key)
    }

    pub fn get<Q: Hash + Eq + ?Sized>(&self, key: &Q) -> Option<&V>
    where
        K: Borrow<Q>,
    {
        self.keys.get_index_of(key).map(|place| &self.values[place])
    }

    pub fn get_mut<Q: Hash + Eq + ?Sized>(&mut self, key: &Q) -> Option<&mut V>
    where
        K: Borrow<Q>,
    {
        self.keys.get_index_of(key).map(|place| &mut self.values[place])
    }

    /// Returns the index of a key.
    pub fn get_index_of<Q: Hash + Eq + ?Sized>(&self, key: &Q) -> Option<usize>
    where
        K: Borrow<Q>,
    {
        self.keys.get_index_of(key)
    }

    /// Returns a mutable reference to the value at an index.
    pub fn get_index_mut(&mut self, place: usize) -> Option<&mut V> {
        self.values.get_mut(place)
    }

    /// Inserts a value under a key, as the last one. If an equal key is present, replaces its value and returns the old
    /// one.
    pub fn insert(&mut self, key: K, value: V) -> Option<V> {
        match self.keys.insert_full(key) {
            (_, true) => {
                self.values.push(value);
                None
            }
            (place, false) => Some(mem::replace(&mut self.values[place], value)),
        }
    }

    /// Removes a key, and returns its value. The later keys move up.
    pub fn shift_remove<Q: Hash + Eq + ?Sized>(&mut self, key: &Q) -> Option<V>
    where
        K: Borrow<Q>,
    {
        let place = self.keys.get_index_of(key)?;
        self.keys.shift_remove(key);
        Some(self.values.remove(place))
    }

    /// Inserts all pairs of another map, and empties that map.
    pub fn append(&mut self, other: &mut Self) {
        let keys = mem::take(&mut other.keys.keys);
        other.keys.clear();
        for (key, value) in keys.into_iter().zip(mem::take(&mut other.values)) {
            self.insert(key, value);
        }
    }
}

/// An iterator over the pairs of a map, in order.
pub type Pairs<'a, K, V> = std::iter::Zip<slice::Iter<'a, K>, slice::Iter<'a, V>>;

impl<K, V, S> IntoIterator for OrderedMap<K, V, S> {
    type Item = (K, V);
    type IntoIter = std::iter::Zip<vec::IntoIter<K>, vec::IntoIter<V>>;

    fn into_iter(self) -> Self::IntoIter {
        self.keys.into_iter().zip(self.values)
    }
}

impl<'a, K, V, S> IntoIterator for &'a OrderedMap<K, V, S> {
    type Item = (&'a K, &'a V);
    type IntoIter = Pairs<'a, K, V>;

    fn into_iter(self) -> Self::IntoIter {
        self.iter()
    }
}

impl<K: fmt::Debug, V: fmt::Debug, S> fmt::Debug for OrderedMap<K, V, S> {
    fn fmt(&self, f: &mut fmt::Formatter<'_>) -> fmt::Result {
        f.debug_map().entries(self.iter()).finish()
    }
}
