//! Removals from a linked map and a linked set in all orders, and random sequences of calls, each compared with a plain
//! vector.
use super::linked_map::{LinkedMap, LinkedSet};
use super::ordered_map::OrderedMap;
use std::hash::{BuildHasher, BuildHasherDefault, Hasher, RandomState};

/// A hasher with few results: most keys collide.
#[derive(Clone, Copy, Default)]
struct Few(u64);

impl Hasher for Few {
    fn finish(&self) -> u64 {
        self.0 % 3
    }

    fn write(&mut self, bytes: &[u8]) {
        for b in bytes {
            self.0 = self.0.wrapping_mul(31).wrapping_add(u64::from(*b));
        }
    }
}

/// A generator of pseudorandom numbers.
struct Drawn(u64);

impl Drawn {
    fn below(&mut self, bound: u64) -> u64 {
        self.0 = self
            .0
            .wrapping_mul(6_364_136_223_846_793_005)
            .wrapping_add(1_442_695_040_888_963_407);
        (self.0 >> 33) % bound
    }
}

type Map<S> = LinkedMap<u64, u64, S>;

fn is_same<S: BuildHasher>(map: &Map<S>, model: &[(u64, u64)], keys: u64) {
    let pairs: Vec<(u64, u64)> = map.iter().map(|(k, v)| (*k, *v)).collect();
    assert_eq!(pairs, model);
    assert!(map.keys().eq(model.iter().map(|(k, _)| k)));
    assert!(map.values().eq(model.iter().map(|(_, v)| v)));
    assert_eq!(map.is_empty(), model.is_empty());
    assert_eq!(map.last(), model.last().map(|(k, v)| (k, v)));
    let mut next = 0;
    for key in 0..keys {
        let held = model.iter().find(|(k, _)| *k == key).map(|(_, v)| v);
        assert_eq!(map.get(&key), held);
        assert_eq!(map.get_near(&key, &mut next).map(|(_, v)| v), held);
        assert_eq!(map.contains_key(&key), held.is_some());
    }
}

fn of_keys<S: BuildHasher>(hasher: S, keys: u64) -> (Map<S>, Vec<(u64, u64)>) {
    let mut map = LinkedMap::with_hasher(hasher);
    let mut model = Vec::new();
    for key in 0..keys {
        map.push(key, key * 10);
        model.push((key, key * 10));
    }
    (map, model)
}

/// Returns all orders of the numbers below `count`.
fn orders(count: u64) -> Vec<Vec<u64>> {
    if count == 0 {
        return vec![Vec::new()];
    }
    let mut all = Vec::new();
    for order in orders(count - 1) {
        for place in 0..=order.len() {
            let mut longer = order.clone();
            longer.insert(place, count - 1);
            all.push(longer);
        }
    }
    all
}

#[test]
fn removals_in_all_orders_keep_the_order_of_the_rest() {
    for order in orders(6) {
        let (mut map, mut model) = of_keys(BuildHasherDefault::<Few>::default(), 6);
        for key in order {
            assert_eq!(map.shift_remove(&key), Some(key * 10));
            assert_eq!(map.shift_remove(&key), None);
            model.retain(|(k, _)| *k != key);
            is_same(&map, &model, 6);
            assert!(map.clone().into_values().eq(model.iter().map(|(_, v)| *v)));
        }
    }
}

#[test]
fn removals_from_the_front_the_middle_and_the_back_keep_the_order_of_the_rest() {
    for start in [0, 250, 499] {
        let (mut map, mut model) = of_keys(RandomState::new(), 500);
        for count in 0..500 {
            let key = (start + count) % 500;
            assert_eq!(map.shift_remove(&key), Some(key * 10));
            model.retain(|(k, _)| *k != key);
            if count % 50 == 0 {
                is_same(&map, &model, 500);
            }
        }
        assert!(map.is_empty());
        map.push(7, 8);
        is_same(&map, &[(7, 8)], 10);
    }
}

#[test]
fn removals_near_a_place_keep_the_order_of_the_rest() {
    let steps = (1..40).map(|step| (0..41).map(|at| at * step % 41).collect());
    for (order, keys) in orders(6)
        .into_iter()
        .map(|order| (order, 6))
        .chain(steps.map(|order: Vec<u64>| (order, 41)))
    {
        let (mut map, mut model) = of_keys(BuildHasherDefault::<Few>::default(), keys);
        for (count, key) in order.into_iter().enumerate() {
            let mut next = usize::MAX;
            let (place, _) = map.get_near(&key, &mut next).expect("the key is present");
            // the place is a hint: a wrong one removes the same entry
            let hint = [place, place + 1, usize::MAX][count % 3];
            assert_eq!(map.shift_remove_near(&key, hint), Some(key * 10));
            assert_eq!(map.shift_remove_near(&key, place), None);
            model.retain(|(k, _)| *k != key);
            is_same(&map, &model, keys);
        }
        assert!(map.is_empty());
    }
}

#[test]
fn lookups_in_order_find_the_next_entry() {
    let (mut map, _) = of_keys(RandomState::new(), 50);
    for key in [0, 20, 49, 33] {
        map.shift_remove(&key);
    }
    let keys: Vec<u64> = map.keys().copied().collect();
    let mut next = usize::MAX;
    for key in &keys {
        let (place, value) = map.get_near(key, &mut next).expect("the key is present");
        assert_eq!(*value, key * 10);
        assert_eq!(map.clone().get_at_mut(place).copied(), Some(key * 10));
    }
    assert!(map.clone().get_at_mut(next).is_none());
    assert!(map.get_near(&20, &mut next).is_none());
}

fn maps_by<S: BuildHasher + Clone>(hasher: S, seed: u64, calls: usize, keys: u64) {
    let mut drawn = Drawn(seed);
    let mut map = LinkedMap::with_hasher(hasher.clone());
    let mut model: Vec<(u64, u64)> = Vec::new();
    for call in 0..calls {
        let (key, value) = (drawn.below(keys), drawn.below(1000));
        let place = model.iter().position(|(k, _)| *k == key);
        match drawn.below(10) {
            0..=3 => assert_eq!(map.insert(key, value), place.map(|place| model[place].1)),
            4..=7 => assert_eq!(map.shift_remove(&key), place.map(|place| model.remove(place).1)),
            8 => {
                map.reserve(drawn.below(40) as usize);
                if let Some(held) = map.get_mut(&key) {
                    *held = value;
                }
            }
            _ => {
                let fresh = keys + call as u64;
                let mut more = OrderedMap::with_hasher(hasher.clone());
                more.insert(fresh, value);
                map.extend_new(more);
                model.push((fresh, value));
                continue;
            }
        }
        if let Some(held) = map.get(&key).copied() {
            match model.iter_mut().find(|(k, _)| *k == key) {
                Some(pair) => pair.1 = held,
                None => model.push((key, held)),
            }
        }
        is_same(&map, &model, keys);
    }
    assert_eq!(format!("{map:?}").matches(':').count(), model.len());
}

#[test]
fn maps_are_as_a_list_of_pairs() {
    for seed in 0..40 {
        maps_by(RandomState::new(), seed, 300, 4 + seed);
        maps_by(BuildHasherDefault::<Few>::default(), seed, 300, 4 + seed);
    }
}

#[test]
fn sets_are_as_a_list_of_values() {
    let mut drawn = Drawn(1);
    let mut set = LinkedSet::with_hasher(BuildHasherDefault::<Few>::default());
    let mut model: Vec<u64> = Vec::new();
    for _ in 0..2000 {
        let value = drawn.below(12);
        let is_present = model.contains(&value);
        match drawn.below(4) {
            0 if !is_present => set.push(value),
            0 | 1 => assert_eq!(set.insert(value), !is_present),
            2 => {
                assert_eq!(set.shift_remove(&value), is_present);
                model.retain(|v| *v != value);
                assert!(set.iter().eq(&model));
                continue;
            }
            _ => {
                let mut other = LinkedSet::with_hasher(BuildHasherDefault::<Few>::default());
                other.reserve(3);
                for more in [99, value, 98] {
                    other.insert(more);
                }
                other.shift_remove(&99);
                other.shift_remove(&98);
                set.append(&mut other);
                assert!(other.is_empty());
            }
        }
        if !is_present {
            model.push(value);
        }
        assert!(set.iter().eq(&model));
        assert_eq!((set.len(), set.is_empty()), (model.len(), model.is_empty()));
    }
}
