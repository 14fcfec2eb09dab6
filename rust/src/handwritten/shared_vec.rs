//! A vector in chunks that copies share.
use std::fmt;
use std::iter::FusedIterator;
use std::mem;
use std::slice;
use std::sync::Arc;
use std::vec;

/// The number of items of each chunk but the last one. A greater number makes copies cheaper, and the first change of a
/// shared chunk dearer.
const CHUNK: usize = 128;

/// A vector that is stored in chunks. A copy shares the chunks, and a change of a shared chunk copies the chunk first. So
/// a copy of n items costs O(n / 128), and a change of an item costs O(1) in addition.
pub(super) struct SharedVec<T> {
    chunks: Vec<Arc<Vec<T>>>,
    len: usize,
}

impl<T> SharedVec<T> {
    pub(super) const fn new() -> Self {
        SharedVec {
            chunks: Vec::new(),
            len: 0,
        }
    }

    pub(super) fn len(&self) -> usize {
        self.len
    }

    pub(super) fn is_empty(&self) -> bool {
        self.len == 0
    }

    #[inline]
    pub(super) fn get(&self, place: usize) -> Option<&T> {
        self.chunks.get(place / CHUNK)?.get(place % CHUNK)
    }

    pub(super) fn reserve(&mut self, additional: usize) {
        self.chunks
            .reserve((self.len + additional).div_ceil(CHUNK) - self.chunks.len());
    }

    pub(super) fn iter(&self) -> Iter<'_, T> {
        Iter {
            chunks: self.chunks.iter(),
            current: [].iter(),
            remaining: self.len,
        }
    }

    /// Iterates over the items, without those whose place in `other` has the same item. Skips the chunks that both share,
    /// and calls `is_same` for the other places that both have.
    pub(super) fn iter_unshared<'a>(
        &'a self,
        other: &'a Self,
        is_same: impl Fn(&T, &T) -> bool + Copy + 'a,
    ) -> impl Iterator<Item = &'a T> {
        let chunks = self.chunks.iter().enumerate();
        chunks.flat_map(move |(number, chunk)| {
            let others = other.chunks.get(number);
            let shared = others.is_some_and(|others| Arc::ptr_eq(chunk, others));
            let items = if shared { [].iter() } else { chunk.iter() };
            items.enumerate().filter_map(move |(place, item)| {
                let other = others.and_then(|others| others.get(place));
                let same = other.is_some_and(|other| is_same(item, other));
                (!same).then_some(item)
            })
        })
    }
}

#[cfg(test)]
impl<T> SharedVec<T> {
    /// Returns the number of chunks that two vectors share.
    pub(super) fn shared_with(&self, other: &Self) -> usize {
        let pairs = self.chunks.iter().zip(&other.chunks);
        pairs.filter(|(one, other)| Arc::ptr_eq(one, other)).count()
    }

    pub(super) fn chunk_count(&self) -> usize {
        self.chunks.len()
    }
}

impl<T: Clone> SharedVec<T> {
    #[inline]
    pub(super) fn get_mut(&mut self, place: usize) -> Option<&mut T> {
        Arc::make_mut(self.chunks.get_mut(place / CHUNK)?).get_mut(place % CHUNK)
    }

    pub(super) fn push(&mut self, item: T) {
        match self.chunks.last_mut() {
            Some(last) if self.len % CHUNK != 0 => Arc::make_mut(last).push(item),
            // the first chunk grows, because most vectors have few items
            last => {
                let mut chunk = Vec::with_capacity(if last.is_some() { CHUNK } else { 1 });
                chunk.push(item);
                self.chunks.push(Arc::new(chunk));
            }
        }
        self.len += 1;
    }

    /// Removes the item at a place, which gets the last item. Returns `None` if there is no such place.
    pub(super) fn swap_remove(&mut self, place: usize) -> Option<T> {
        if place >= self.len {
            return None;
        }
        let last = Arc::make_mut(self.chunks.last_mut()?).pop()?;
        self.len -= 1;
        if self.len % CHUNK == 0 {
            self.chunks.pop();
        }
        match self.get_mut(place) {
            None => Some(last),
            Some(item) => Some(mem::replace(item, last)),
        }
    }

    /// Returns the items in one vector. Items of shared chunks are cloned.
    pub(super) fn into_vec(self) -> Vec<T> {
        let mut all = Vec::with_capacity(self.len);
        all.extend(self);
        all
    }
}

impl<T> Clone for SharedVec<T> {
    fn clone(&self) -> Self {
        SharedVec {
            chunks: self.chunks.clone(),
            len: self.len,
        }
    }
}

impl<T: Clone> IntoIterator for SharedVec<T> {
    type Item = T;
    type IntoIter = IntoIter<T>;

    fn into_iter(self) -> IntoIter<T> {
        IntoIter {
            chunks: self.chunks.into_iter(),
            current: Vec::new().into_iter(),
            remaining: self.len,
        }
    }
}

/// An iterator over the items of a vector in chunks.
#[derive(Debug)]
pub(super) struct Iter<'a, T> {
    chunks: slice::Iter<'a, Arc<Vec<T>>>,
    current: slice::Iter<'a, T>,
    remaining: usize,
}

impl<T> Clone for Iter<'_, T> {
    fn clone(&self) -> Self {
        Iter {
            chunks: self.chunks.clone(),
            current: self.current.clone(),
            remaining: self.remaining,
        }
    }
}

impl<'a, T> Iterator for Iter<'a, T> {
    type Item = &'a T;

    #[inline]
    fn next(&mut self) -> Option<&'a T> {
        loop {
            if let Some(item) = self.current.next() {
                self.remaining -= 1;
                return Some(item);
            }
            self.current = self.chunks.next()?.iter();
        }
    }

    fn size_hint(&self) -> (usize, Option<usize>) {
        (self.remaining, Some(self.remaining))
    }
}

impl<T> ExactSizeIterator for Iter<'_, T> {}

impl<T> FusedIterator for Iter<'_, T> {}

/// An iterator over the items of a vector in chunks, which it consumes. Items of shared chunks are cloned.
#[derive(Debug)]
pub(super) struct IntoIter<T> {
    chunks: vec::IntoIter<Arc<Vec<T>>>,
    current: vec::IntoIter<T>,
    remaining: usize,
}

impl<T: Clone> Iterator for IntoIter<T> {
    type Item = T;

    fn next(&mut self) -> Option<T> {
        loop {
            if let Some(item) = self.current.next() {
                self.remaining -= 1;
                return Some(item);
            }
            self.current = Arc::unwrap_or_clone(self.chunks.next()?).into_iter();
        }
    }

    fn size_hint(&self) -> (usize, Option<usize>) {
        (self.remaining, Some(self.remaining))
    }
}

impl<T: Clone> ExactSizeIterator for IntoIter<T> {}

impl<T: Clone> FusedIterator for IntoIter<T> {}

impl<T: fmt::Debug> fmt::Debug for SharedVec<T> {
    fn fmt(&self, f: &mut fmt::Formatter<'_>) -> fmt::Result {
        f.debug_list().entries(self.iter()).finish()
    }
}
