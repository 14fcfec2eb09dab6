//! Stores, policy sets, closures and runs with other builders of hashers: two keys, one builder for which all ids
//! collide, and one with another order. The builder does not affect the results.
mod common;
#[path = "common/policies.rs"]
mod policies;

use cedar_store::ast::{Entity, EntityUID, PolicySet};
use cedar_store::entities::{Entities, TCComputation};
#[cfg(feature = "cli")]
use cedar_store::program::run_with;
use cedar_store::{KeyedState, slice};
use common::{Random, id, principal};
use policies::{permit, principal_template};
use std::collections::HashMap;
use std::hash::{BuildHasher, Hasher};
use std::sync::Arc;

/// A builder for which all ids have the same hash.
#[derive(Clone, Copy, Default)]
struct Colliding;

impl BuildHasher for Colliding {
    type Hasher = Colliding;

    fn build_hasher(&self) -> Colliding {
        Colliding
    }
}

impl Hasher for Colliding {
    fn finish(&self) -> u64 {
        0
    }

    fn write(&mut self, _: &[u8]) {}
}

/// A hasher that sums the bytes from the end, which gives another order than any other hasher.
#[derive(Clone, Copy, Default)]
struct Backwards(u64);

impl BuildHasher for Backwards {
    type Hasher = Backwards;

    fn build_hasher(&self) -> Backwards {
        Backwards(0)
    }
}

impl Hasher for Backwards {
    fn finish(&self) -> u64 {
        self.0.reverse_bits()
    }

    fn write(&mut self, bytes: &[u8]) {
        for byte in bytes.iter().rev() {
            self.0 = self.0.wrapping_mul(31).wrapping_add(u64::from(*byte) + 1);
        }
    }
}

fn uid(name: usize) -> EntityUID {
    EntityUID::with_eid_and_type("A", &name.to_string()).unwrap()
}

fn entity(random: &mut Random, name: usize) -> Entity {
    let mut entity = Entity::with_uid(uid(name));
    for _ in 0..random.below(3) {
        entity.add_parent(uid(name + 1 + random.below(5)));
    }
    entity
}

/// Returns the results of random calls on a store, and the final store, as a text.
fn store_results<S: BuildHasher + Clone>(hasher: S, seed: u64) -> String {
    let mut random = Random::new(seed);
    let first: Vec<Entity> = (0..50).map(|name| entity(&mut random, name)).collect();
    let mut store = Entities::from_entities_with_hasher(hasher, first, TCComputation::ComputeNow).unwrap();
    let mut output = String::new();
    for _ in 0..30 {
        let name = random.below(60);
        let before = store.clone();
        let entities = vec![Arc::new(entity(&mut random, name))];
        let result = match random.below(3) {
            0 => store.add_entities(entities, TCComputation::ComputeNow),
            1 => store.upsert_entities(entities, TCComputation::ComputeNow),
            _ => store.remove_entities([uid(name)], TCComputation::ComputeNow),
        };
        store = result.unwrap_or_else(|error| {
            output += &error.to_string();
            before
        });
        output += &store.to_string();
        output += &slice(&store, &[uid(name)]).to_string();
    }
    output
}

/// Returns the results of random calls on a policy set and of a merge, and the final set, as a text.
fn policy_set_results<S: BuildHasher + Copy>(hasher: S, seed: u64) -> String {
    let mut random = Random::new(seed);
    let mut output = String::new();
    let mut random_set = || {
        let mut set = PolicySet::with_hasher(hasher);
        for _ in 0..30 {
            let name = format!("policy{}", random.below(12));
            let result = match random.below(5) {
                0 => set.add_static(permit(&name, None)).map_err(|error| error.to_string()),
                1 => set
                    .add_template(principal_template(&name))
                    .map_err(|error| error.to_string()),
                2 => set.unlink(&id(&name)).map(|_| ()).map_err(|error| error.to_string()),
                _ => {
                    let template = id(&format!("policy{}", random.below(12)));
                    let bound = principal(uid(random.below(3)));
                    set.link(template, id(&name), bound)
                        .map(|_| ())
                        .map_err(|error| error.to_string())
                }
            };
            output += &result.err().unwrap_or_default();
        }
        set
    };
    let (mut one, other) = (random_set(), random_set());
    let renaming = one.merge_policyset(&other, true).expect("conflicting ids are renamed");
    for (old, new) in renaming.iter() {
        output += &format!("{old} {new} ");
    }
    output + &one.to_string() + &other.to_string()
}

/// Asserts that a function of a hasher and a seed returns the same as with the default hasher.
macro_rules! assert_same_with_hashers {
    ($results:ident, $seed:ident, $($hasher:expr),*) => {
        let expected = $results(KeyedState::default(), $seed);
        $(assert_eq!($results($hasher, $seed), expected);)*
    };
}

#[test]
fn store_results_do_not_depend_on_the_hasher() {
    for seed in 0..60 {
        let (one, other) = (KeyedState::with_keys(1, 2), KeyedState::with_keys(u64::MAX, 3));
        assert_same_with_hashers!(store_results, seed, one, other, Colliding, Backwards::default());
        assert_same_with_hashers!(store_results, seed, std::hash::RandomState::new());
    }
}

#[test]
fn policy_set_results_do_not_depend_on_the_hasher() {
    for seed in 0..400 {
        let (one, other) = (KeyedState::with_keys(1, 2), KeyedState::with_keys(u64::MAX, 3));
        assert_same_with_hashers!(policy_set_results, seed, one, other, Colliding, Backwards::default());
    }
}

#[cfg(feature = "cli")]
#[test]
fn runs_do_not_depend_on_the_hasher() {
    let lines: String = (0..200)
        .map(|name| format!("ent\tA::\"{name}\"\tA::\"{}\"\n", name + 1))
        .chain([
            "build\n".into(),
            "anc\tA::\"190\"\n".into(),
            "remove\tA::\"195\"\n".into(),
            "anc\tA::\"190\"\n".into(),
        ])
        .collect();
    let expected = run_lines(KeyedState::default(), &lines);
    assert_eq!(run_lines(Colliding, &lines), expected);
    assert_eq!(run_lines(Backwards::default(), &lines), expected);
}

#[cfg(feature = "cli")]
fn run_lines<S: BuildHasher + Copy>(hasher: S, lines: &str) -> (Vec<u8>, u8) {
    let mut written = Vec::new();
    let status = run_with(hasher, &mut lines.as_bytes(), &mut written).expect("reading and writing memory never fails");
    (written, status)
}

/// A map of nodes can have any hasher.
#[test]
fn closures_do_not_depend_on_the_hasher() {
    fn closed_nodes<S: BuildHasher + Clone>(hasher: S) -> Vec<String> {
        let mut nodes: HashMap<EntityUID, Entity, S> = HashMap::with_hasher(hasher);
        for name in 0..40 {
            let mut entity = Entity::with_uid(uid(name));
            entity.add_parent(uid((name * 7 + 3) % 40));
            nodes.insert(uid(name), entity);
        }
        cedar_store::transitive_closure::compute_tc_with_hasher(&mut nodes, false).expect("the call succeeds");
        let mut texts: Vec<String> = nodes.values().map(ToString::to_string).collect();
        texts.sort();
        texts
    }
    let expected = closed_nodes(std::hash::RandomState::new());
    assert_eq!(closed_nodes(Colliding), expected);
    assert_eq!(closed_nodes(Backwards::default()), expected);
    assert_eq!(closed_nodes(KeyedState::with_keys(5, 6)), expected);
}
