//! Random sequences of calls on a map and a set, each compared with a plain vector.
use super::ordered_map::{OrderedMap, OrderedSet};
use std::fmt::Debug;
use std::hash::{BuildHasher, BuildHasherDefault, Hasher, RandomState};

/// A hasher with few results: most keys collide.
#[derive(Clone, Copy, Default)]
struct Few(u64);

impl Hasher for Few {
    fn finish(&self) -> u64 {
        self.0 % 3
    }

    fn write(&mut self, bytes: &[u8]) {
        for b in bytes {
            self.0 = self.0.wrapping_mul(31).wrapping_add(u64::from(*b));
        }
    }
}

/// A generator of pseudorandom numbers.
struct Drawn(u64);

impl Drawn {
    fn below(&mut self, bound: u64) -> u64 {
        self.0 = self
            .0
            .wrapping_mul(6_364_136_223_846_793_005)
            .wrapping_add(1_442_695_040_888_963_407);
        (self.0 >> 33) % bound
    }
}

fn remove<K: PartialEq, V>(model: &mut Vec<(K, V)>, key: &K) -> Option<V> {
    let place = model.iter().position(|(k, _)| k == key)?;
    Some(model.remove(place).1)
}

fn insert<K: PartialEq, V>(model: &mut Vec<(K, V)>, key: K, value: V) -> Option<V> {
    match model.iter_mut().find(|(k, _)| *k == key) {
        Some((_, held)) => Some(std::mem::replace(held, value)),
        None => {
            model.push((key, value));
            None
        }
    }
}

fn is_same<S: BuildHasher>(map: &OrderedMap<u64, u64, S>, model: &[(u64, u64)], keys: u64) {
    let pairs: Vec<(u64, u64)> = map.iter().map(|(k, v)| (*k, *v)).collect();
    assert_eq!(pairs, model);
    assert_eq!((map.len(), map.is_empty()), (model.len(), model.is_empty()));
    let values: Vec<u64> = model.iter().map(|(_, v)| *v).collect();
    assert_eq!(map.values(), values);
    for key in 0..keys {
        let held = model.iter().find(|(k, _)| *k == key).map(|(_, v)| v);
        assert_eq!(map.get(&key), held);
        assert_eq!(map.contains_key(&key), held.is_some());
    }
}

fn maps_by<S: BuildHasher + Clone>(hasher: S, seed: u64, calls: usize, keys: u64) {
    let mut drawn = Drawn(seed);
    let mut map = OrderedMap::with_hasher(hasher.clone());
    let mut model = Vec::new();
    for call in 0..calls {
        let (key, value) = (drawn.below(keys), drawn.below(1000));
        match drawn.below(10) {
            0..=4 => assert_eq!(map.insert(key, value), insert(&mut model, key, value)),
            5..=7 => assert_eq!(map.shift_remove(&key), remove(&mut model, &key)),
            8 => {
                map.reserve(drawn.below(40) as usize);
                if let Some(held) = map.get_mut(&key) {
                    *held = value;
                    insert(&mut model, key, value);
                }
            }
            _ => append(&mut map, &mut model, &mut drawn, hasher.clone(), keys),
        }
        if call % 7 == 0 {
            is_same(&map, &model, keys);
        }
    }
    is_same(&map.clone(), &model, keys);
    assert_eq!(map.into_iter().collect::<Vec<_>>(), model);
}

fn append<S: BuildHasher>(
    map: &mut OrderedMap<u64, u64, S>,
    model: &mut Vec<(u64, u64)>,
    drawn: &mut Drawn,
    hasher: S,
    keys: u64,
) {
    let mut other = OrderedMap::with_capacity_and_hasher(drawn.below(8) as usize, hasher);
    for _ in 0..drawn.below(6) {
        let (key, value) = (drawn.below(keys), drawn.below(1000));
        other.insert(key, value);
    }
    for (key, value) in &other {
        insert(model, *key, *value);
    }
    map.append(&mut other);
    is_same(&other, &[], keys);
    other.insert(1, 2);
    is_same(&other, &[(1, 2)], keys);
}

fn sets_by<S: BuildHasher + Clone>(hasher: S, seed: u64, calls: usize, keys: u64) {
    let mut drawn = Drawn(seed);
    let mut set = OrderedSet::with_capacity_and_hasher(drawn.below(20) as usize, hasher.clone());
    let mut model: Vec<u64> = Vec::new();
    for _ in 0..calls {
        let key = drawn.below(keys);
        let place = model.iter().position(|k| *k == key);
        assert_eq!((set.get_index_of(&key), set.contains(&key)), (place, place.is_some()));
        match drawn.below(9) {
            0..=4 => {
                assert_eq!(set.insert_full(key), (place.unwrap_or(model.len()), place.is_none()));
                if place.is_none() {
                    model.push(key);
                }
            }
            5..=7 => {
                assert_eq!(set.shift_remove(&key), place.is_some());
                model.retain(|k| *k != key);
            }
            _ => {
                let mut other = OrderedSet::with_hasher(hasher.clone());
                other.insert(key);
                set.append(&mut other);
                assert!(other.is_empty());
                if place.is_none() {
                    model.push(key);
                }
            }
        }
        assert_eq!((set.as_slice(), set.len()), (model.as_slice(), model.len()));
        assert!(set.iter().enumerate().all(|(i, key)| set[i] == *key));
    }
    assert_eq!(shown(&set), shown(&model).replace('[', "{").replace(']', "}"));
    assert_eq!(set.into_iter().collect::<Vec<_>>(), model);
}

fn shown(thing: &impl Debug) -> String {
    format!("{thing:?}")
}

#[test]
fn maps_are_as_a_list_of_pairs() {
    for seed in 0..60 {
        maps_by(RandomState::new(), seed, 400, 4 + seed * 3);
        maps_by(BuildHasherDefault::<Few>::default(), seed, 400, 4 + seed * 3);
    }
}

#[test]
fn sets_are_as_a_list_of_keys() {
    for seed in 0..60 {
        sets_by(RandomState::new(), seed, 400, 4 + seed * 3);
        sets_by(BuildHasherDefault::<Few>::default(), seed, 400, 4 + seed * 3);
    }
}

#[test]
fn a_map_that_is_filled_and_emptied_stays_right() {
    let mut map = OrderedMap::with_hasher(RandomState::new());
    for round in 0..3u64 {
        for key in 0..2000u64 {
            assert_eq!(map.insert(key, round), None);
        }
        for key in (0..2000u64).filter(|k| k % 3 != round) {
            assert_eq!(map.shift_remove(&key), Some(round));
        }
        let left: Vec<u64> = map.iter().map(|(k, _)| *k).collect();
        assert_eq!(left, (0..2000).filter(|k| k % 3 == round).collect::<Vec<_>>());
        for key in left {
            assert_eq!(map.shift_remove(&key), Some(round));
        }
        assert!(map.is_empty());
    }
}
