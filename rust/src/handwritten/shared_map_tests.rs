//! Copies of shared vectors, maps and sets: random sequences of calls on several copies, each compared with a plain
//! model, and what the copies share.
use super::node_map::{KeySet, NodeMap};
use super::shared_map::{SharedMap, SharedSet};
use super::shared_vec::SharedVec;
use std::collections::BTreeMap;
use std::hash::{BuildHasher, BuildHasherDefault, Hasher, RandomState};

/// A hasher with few results: most keys collide.
#[derive(Clone, Copy, Default)]
struct Few(u64);

impl Hasher for Few {
    fn finish(&self) -> u64 {
        self.0 % 5
    }

    fn write(&mut self, bytes: &[u8]) {
        for b in bytes {
            self.0 = self.0.wrapping_mul(31).wrapping_add(u64::from(*b));
        }
    }
}

/// A generator of pseudorandom numbers.
struct Drawn(u64);

impl Drawn {
    fn below(&mut self, bound: u64) -> u64 {
        self.0 = self
            .0
            .wrapping_mul(6_364_136_223_846_793_005)
            .wrapping_add(1_442_695_040_888_963_407);
        (self.0 >> 33) % bound
    }
}

/// A map and what it must contain.
type Pair<S> = (SharedMap<u64, u64, S>, BTreeMap<u64, u64>);

fn is_same<S: BuildHasher + Clone>((map, model): &Pair<S>, keys: u64) {
    assert_eq!((map.len(), map.is_empty()), (model.len(), model.is_empty()));
    assert_eq!(map.iter().len(), model.len());
    let pairs: BTreeMap<u64, u64> = map.iter().map(|(k, v)| (*k, *v)).collect();
    assert_eq!(&pairs, model);
    assert!(map.keys().eq(map.into_iter().map(|(key, _)| key)));
    assert!(map.values().eq(NodeMap::values(map)));
    assert!(map.clone().into_iter().eq(map.iter().map(|(k, v)| (*k, *v))));
    for key in 0..keys {
        assert_eq!(map.get(&key), model.get(&key));
        assert_eq!(map.contains_key(&key), model.contains_key(&key));
    }
}

/// Makes a random call on a map and on its model.
fn change<S: BuildHasher>((map, model): &mut Pair<S>, drawn: &mut Drawn, keys: u64) {
    let (key, value) = (drawn.below(keys), drawn.below(1000));
    match drawn.below(8) {
        0..=2 => assert_eq!(map.insert(key, value), model.insert(key, value)),
        3 => match map.insert_new(key, value) {
            None => assert_eq!(model.insert(key, value), None),
            Some((stored, new)) => assert_eq!((Some(stored), new), (model.get(&key), value)),
        },
        4 | 5 => assert_eq!(map.remove(&key), model.remove(&key)),
        6 => map.reserve(drawn.below(300) as usize),
        _ => {
            assert_eq!(map.get_mut(&key), model.get_mut(&key));
            if let (Some(stored), Some(expected)) = (map.get_mut(&key), model.get_mut(&key)) {
                (*stored, *expected) = (value, value);
            }
        }
    }
}

fn copies_by<S: BuildHasher + Clone>(hasher: S, seed: u64, calls: usize, keys: u64) {
    let mut drawn = Drawn(seed);
    let mut pairs = vec![(SharedMap::with_hasher(hasher), BTreeMap::new())];
    for call in 0..calls {
        let place = drawn.below(pairs.len() as u64) as usize;
        if call % 40 == 0 {
            let copy = pairs[place].clone();
            pairs.push(copy);
            if pairs.len() > 4 {
                pairs.swap_remove(0);
            }
        }
        let place = drawn.below(pairs.len() as u64) as usize;
        change(&mut pairs[place], &mut drawn, keys);
        if call % 40 == 39 {
            pairs.iter().for_each(|pair| is_same(pair, keys));
        }
    }
}

#[test]
fn copies_are_as_copies_of_a_map() {
    for seed in 0..20 {
        copies_by(RandomState::new(), seed, 400, 4 + 2 * seed);
        copies_by(BuildHasherDefault::<Few>::default(), seed, 400, 4 + 2 * seed);
    }
    copies_by(RandomState::new(), 77, 6_000, 1_500);
}

#[test]
fn a_map_that_is_filled_and_emptied_stays_right() {
    let mut map = SharedMap::with_hasher(RandomState::new());
    for round in 0..3 {
        for key in 0..2_000 {
            assert_eq!(map.insert(key, key + round), None);
        }
        let copy = map.clone();
        for key in (0..2_000).rev() {
            assert_eq!(map.remove(&key), Some(key + round));
            assert_eq!(map.remove(&key), None);
        }
        assert!(map.is_empty());
        assert!(copy.iter().all(|(key, value)| *value == key + round));
        assert_eq!(copy.iter().count(), 2_000);
    }
}

#[test]
fn sets_are_as_copies_of_a_set() {
    let mut drawn = Drawn(3);
    let mut set = SharedSet::with_hasher(BuildHasherDefault::<Few>::default());
    let mut model = std::collections::BTreeSet::new();
    for _ in 0..500 {
        let value = drawn.below(40);
        let copy = (set.clone(), model.clone());
        if drawn.below(3) == 0 {
            assert_eq!(set.remove(&value), model.remove(&value));
        } else {
            assert_eq!(set.insert(value), model.insert(value));
        }
        for (set, model) in [(&set, &model), (&copy.0, &copy.1)] {
            assert_eq!((set.len(), set.is_empty()), (model.len(), model.is_empty()));
            assert!((0..40).all(|value| set.contains(&value) == model.contains(&value)));
            assert_eq!(KeySet::iter(set).count(), model.len());
            assert!(set.into_iter().all(|value| model.contains(value)));
        }
    }
}

/// An entry that `other` does not have is among the unshared ones. Most entries are shared and skipped.
fn has_unshared<S: BuildHasher>((map, _): &Pair<S>, (other, other_model): &Pair<S>) -> usize {
    let unshared: BTreeMap<u64, u64> = map
        .entries_unshared(other, |one, other| one == other)
        .copied()
        .collect();
    for (key, value) in map {
        assert!(other_model.get(key) == Some(value) || unshared.get(key) == Some(value));
    }
    unshared.len()
}

#[test]
fn entries_that_two_copies_do_not_share_are_found() {
    let mut drawn = Drawn(9);
    let keys = 2000;
    for calls in [0, 1, 2, 10, 300] {
        let mut one = (SharedMap::with_hasher(RandomState::new()), BTreeMap::new());
        for _ in 0..4000 {
            change(&mut one, &mut drawn, keys);
        }
        let mut other = one.clone();
        for _ in 0..calls {
            change(&mut one, &mut drawn, keys);
            change(&mut other, &mut drawn, keys);
        }
        let found = has_unshared(&one, &other) + has_unshared(&other, &one);
        assert!(found <= 8 * calls, "{found} entries after {calls} calls");
    }
}

#[test]
fn a_change_of_a_copy_copies_one_chunk() {
    let mut vector = SharedVec::new();
    (0..1_000).for_each(|item| vector.push(item));
    let mut copy = vector.clone();
    assert_eq!((vector.shared_with(&copy), vector.chunk_count()), (8, 8));
    *copy.get_mut(300).expect("the place is present") = 0;
    assert_eq!(vector.shared_with(&copy), 7);
    copy.push(1_000);
    assert_eq!(vector.shared_with(&copy), 6);
    assert_eq!(copy.swap_remove(301), Some(301));
    assert_eq!((copy.get(301), vector.get(301)), (Some(&1_000), Some(&301)));
    assert!(vector.into_vec().into_iter().eq(0..1_000));
}

#[test]
fn items_at_the_ends_of_chunks_are_found() {
    for count in [0, 1, 127, 128, 129, 256, 257] {
        let mut vector = SharedVec::new();
        (0..count).for_each(|item| vector.push(item));
        assert!(vector.iter().copied().eq(0..count));
        assert_eq!((vector.len(), vector.is_empty()), (count, count == 0));
        assert!(vector.get(count).is_none() && vector.get_mut(count).is_none());
        assert_eq!(vector.swap_remove(count), None);
        assert_eq!(vector.iter().len(), count);
        for item in (0..count).rev() {
            assert_eq!(vector.swap_remove(item), Some(item));
        }
        vector.push(7);
        assert_eq!((vector.len(), vector.get(0)), (1, Some(&7)));
    }
}
