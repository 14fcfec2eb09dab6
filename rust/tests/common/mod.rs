//! Helpers that create uids, entities, ids and bindings from short texts, and pseudorandom numbers.
#![allow(dead_code, reason = "each test file uses some of the helpers")]

use cedar_store::ast::{Entity, EntityUID, PartialValue, PolicyID, SlotEnv, SlotId};
use std::collections::HashMap;
use std::sync::Arc;

/// Returns the number of rounds of a random test: a twentieth of `all`, or all if `CEDAR_LONG_TESTS` is set, as the
/// ignored test of the program sets it.
pub fn rounds(all: u64) -> u64 {
    if std::env::var_os("CEDAR_LONG_TESTS").is_some() {
        all
    } else {
        all / 20
    }
}

/// Parses a uid.
pub fn uid(text: &str) -> EntityUID {
    EntityUID::from_normalized_str(text).expect("a valid uid")
}

/// Returns the uid with this eid, of the type that the tests use.
pub fn with_eid(eid: &str) -> EntityUID {
    EntityUID::with_eid_and_type("test_entity_type", eid).expect("a valid entity type")
}

/// Returns an entity with this uid and these parents.
pub fn entity_under(uid: EntityUID, parents: impl IntoIterator<Item = EntityUID>) -> Entity {
    let mut entity = Entity::with_uid(uid);
    for parent in parents {
        entity.add_parent(parent);
    }
    entity
}

/// Returns the uid of a number. Uids are in the order of their numbers.
pub fn node(number: usize) -> EntityUID {
    uid(&format!("A::\"{number:06}\""))
}

/// Returns the entity of a number, with parents by their numbers.
pub fn numbered(number: usize, parents: &[usize]) -> Entity {
    entity_under(node(number), parents.iter().copied().map(node))
}

/// Returns an entity with this eid and these parents.
pub fn child(eid: &str, parents: &[&str]) -> Entity {
    entity_under(with_eid(eid), parents.iter().map(|parent| with_eid(parent)))
}

/// Returns entities under their uids. Each has an eid and the eids of its parents.
pub fn graph(nodes: &[(&str, &[&str])]) -> HashMap<EntityUID, Entity> {
    nodes
        .iter()
        .map(|(eid, parents)| (with_eid(eid), child(eid, parents)))
        .collect()
}

pub fn id(text: &str) -> PolicyID {
    PolicyID::from_string(text)
}

/// Returns bindings of only the principal's slot.
pub fn principal(uid: EntityUID) -> SlotEnv {
    SlotEnv::from([(SlotId::principal(), uid)])
}

/// Returns bindings of only the resource's slot.
pub fn resource(uid: EntityUID) -> SlotEnv {
    SlotEnv::from([(SlotId::resource(), uid)])
}

pub fn shared<T>(value: T) -> Arc<T> {
    Arc::new(value)
}

/// A generator of pseudorandom numbers. The same seed always gives the same numbers.
pub struct Random(u64);

impl Random {
    pub fn new(seed: u64) -> Random {
        Random(seed.wrapping_mul(0x9E37_79B9_7F4A_7C15) | 1)
    }

    pub fn next_u64(&mut self) -> u64 {
        self.0 ^= self.0 << 13;
        self.0 ^= self.0 >> 7;
        self.0 ^= self.0 << 17;
        self.0.wrapping_mul(0x2545_F491_4F6C_DD1D)
    }

    /// Returns a number below `limit`.
    pub fn below(&mut self, limit: usize) -> usize {
        usize::try_from(self.next_u64() >> 33).expect("31 bits") % limit
    }

    /// Returns an item of a list.
    pub fn choose<'a, T>(&mut self, items: &'a [T]) -> &'a T {
        &items[self.below(items.len())]
    }

    /// Returns true in one of `count` calls, on average.
    pub fn one_in(&mut self, count: usize) -> bool {
        self.below(count) == 0
    }
}

/// The types of drawn uids.
pub const TYPES: [&str; 3] = ["A", "B", "N::A"];

/// Returns a uid of one of the types, with a number below `count` as its eid.
pub fn drawn_uid(random: &mut Random, count: usize) -> EntityUID {
    uid(&format!("{}::\"{}\"", random.choose(&TYPES), random.below(count)))
}

/// Returns an entity with up to three parents and, if wanted, with indirect ancestors. Its attributes and its tags are
/// drawn by `fields`.
pub fn drawn_with(
    random: &mut Random,
    count: usize,
    indirect: bool,
    fields: fn(&mut Random) -> Vec<(String, PartialValue)>,
) -> Entity {
    let own = drawn_uid(random, count);
    let parents = (0..random.below(4)).map(|_| drawn_uid(random, count)).collect();
    let above = (0..if indirect { random.below(3) } else { 0 })
        .map(|_| drawn_uid(random, count))
        .collect();
    let (attrs, tags) = (fields(random), fields(random));
    Entity::new_with_attr_partial_value(own, attrs, above, parents, tags)
}
