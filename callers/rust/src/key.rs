//! The key of the hash maps in a store or a set.
use std::collections::hash_map::RandomState;
use std::hash::BuildHasher;

/// The key of the hash maps in a store or a set. A key that is unknown to an attacker prevents an attack with colliding
/// ids. If there are several cycles or several missing ancestors, the key determines which of them an error names. It
/// also determines the order in which a store lists its entities. It affects no other result.
///
/// ```
/// use cedar_store_proved::{Entities, Key};
/// let random = Entities::with_key(Key::random()).unwrap();
/// let fixed = Entities::with_key(Key { seed: 0, key: 0 }).unwrap();
/// assert!(random.deep_eq(&fixed));
/// ```
#[derive(Clone, Copy)]
pub struct Key {
    /// The initial value of each hash.
    pub seed: u64,
    /// The factor by which a hash is multiplied.
    pub key: u64,
}

impl Key {
    /// Returns a random key, from the source that the standard library uses for its hash maps. Does not allocate.
    pub fn random() -> Key {
        let state = RandomState::new();
        Key {
            seed: state.hash_one(0u8),
            key: state.hash_one(1u8),
        }
    }
}

impl std::fmt::Debug for Key {
    fn fmt(&self, f: &mut std::fmt::Formatter<'_>) -> std::fmt::Result {
        f.debug_struct("Key").finish_non_exhaustive()
    }
}
