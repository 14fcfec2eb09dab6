//! A hash table of places, in chunks that copies share.
use std::sync::Arc;

/// The number of slots of each chunk. A smaller table has one smaller chunk.
const CHUNK: usize = 512;

/// Marks a free slot.
const FREE: u64 = u64::MAX;

/// A hash table of the places of keys in a vector. It uses open addressing and is at most three quarters full.
///
/// A slot has 32 bits of the hash of a key, and the place of the key. So a search reads few keys, and the table grows
/// without a hash.
#[derive(Clone, Default)]
pub(super) struct Slots {
    chunks: Vec<Arc<[u64]>>,
    count: usize,
    used: usize,
}

fn tag_of(hash: u64) -> u64 {
    hash.wrapping_mul(0x9E37_79B9_7F4A_7C15) >> 32
}

fn slot_of(hash: u64, place: usize) -> u64 {
    tag_of(hash) << 32 | place as u64
}

impl Slots {
    /// Returns whether there is no table yet.
    #[inline]
    pub(super) fn is_empty(&self) -> bool {
        self.count == 0
    }

    #[inline]
    fn at(&self, index: usize) -> u64 {
        self.chunks[index / CHUNK][index % CHUNK]
    }

    fn set(&mut self, index: usize, slot: u64) {
        Arc::make_mut(&mut self.chunks[index / CHUNK])[index % CHUNK] = slot;
    }

    /// Returns the index at which the search for a tag begins.
    #[inline]
    fn home(&self, tag: u64) -> usize {
        tag as usize & (self.count - 1)
    }

    #[inline]
    fn next(&self, index: usize) -> usize {
        (index + 1) & (self.count - 1)
    }

    /// Returns the first result of `test` for a place of a key with this hash. There must be a table.
    #[inline]
    pub(super) fn find<T>(&self, hash: u64, test: impl Fn(usize) -> Option<T>) -> Option<T> {
        let tag = tag_of(hash);
        let home = self.home(tag);
        let (mut chunk, mut start) = (home / CHUNK, home % CHUNK);
        loop {
            for slot in &self.chunks[chunk][start..] {
                if slot >> 32 == tag {
                    let found = test(*slot as u32 as usize);
                    if found.is_some() {
                        return found;
                    }
                }
                if *slot == FREE {
                    return None;
                }
            }
            (chunk, start) = ((chunk + 1) % self.chunks.len(), 0);
        }
    }

    /// Makes room for `additional` further places.
    pub(super) fn reserve(&mut self, additional: usize) {
        let need = self.used + additional;
        if need * 4 <= self.count * 3 {
            return;
        }
        assert!(need < u32::MAX as usize, "too many keys");
        let old = std::mem::take(self);
        self.count = (need * 4).div_ceil(3).next_power_of_two();
        let length = self.count.min(CHUNK);
        self.chunks
            .resize_with(self.count / length, || Arc::from(vec![FREE; length]));
        let slots = old.chunks.iter().flat_map(|chunk| chunk.iter());
        for slot in slots.filter(|slot| **slot != FREE) {
            self.put(*slot);
        }
    }

    fn put(&mut self, slot: u64) {
        let mut index = self.home(slot >> 32);
        while self.at(index) != FREE {
            index = self.next(index);
        }
        self.set(index, slot);
        self.used += 1;
    }

    /// Inserts the place of a new key with this hash.
    pub(super) fn insert(&mut self, hash: u64, place: usize) {
        if self.used * 4 >= self.count * 3 {
            self.reserve(1);
        }
        self.put(slot_of(hash, place));
    }

    /// Returns the index of the slot with this place and hash. There must be one.
    fn index_of(&self, hash: u64, place: usize) -> usize {
        let slot = slot_of(hash, place);
        let mut index = self.home(slot >> 32);
        while self.at(index) != slot {
            index = self.next(index);
        }
        index
    }

    /// Replaces the place of the key with this hash.
    pub(super) fn replace(&mut self, hash: u64, place: usize, by: usize) {
        self.set(self.index_of(hash, place), slot_of(hash, by));
    }

    /// Removes the place of a key with this hash. Later slots of the same search move up.
    pub(super) fn remove(&mut self, hash: u64, place: usize) {
        let mask = self.count - 1;
        let mut free = self.index_of(hash, place);
        let mut index = self.next(free);
        loop {
            let slot = self.at(index);
            if slot == FREE {
                break;
            }
            let home = self.home(slot >> 32);
            if (index.wrapping_sub(home) & mask) >= (index.wrapping_sub(free) & mask) {
                self.set(free, slot);
                free = index;
            }
            index = self.next(index);
        }
        self.set(free, FREE);
        self.used -= 1;
    }
}
