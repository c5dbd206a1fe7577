//! Hash tables whose keys come from a file, such as names. They are fast, and their hash keys
//! differ in each run, so nobody can craft a file whose names all collide.

use ahash::{AHasher, RandomState};
use std::collections::{hash_map, HashMap, HashSet};
use std::hash::{BuildHasher, Hasher as _};
use std::sync::OnceLock;

/// A hash map with the hash keys of this run.
pub type Map<K, V> = HashMap<K, V, KeysOfRun>;
/// A hash set with the hash keys of this run.
pub type Set<K> = HashSet<K, KeysOfRun>;

/// A maker of hashers, whose hash keys differ in each run.
#[derive(Clone)]
pub struct KeysOfRun(RandomState);

impl Default for KeysOfRun {
    fn default() -> KeysOfRun {
        static KEYS: OnceLock<RandomState> = OnceLock::new();
        let fresh = || {
            let random = hash_map::RandomState::new();
            let key = |number: u64| {
                let mut hasher = random.build_hasher();
                hasher.write_u64(number);
                hasher.finish()
            };
            RandomState::with_seeds(key(0), key(1), key(2), key(3))
        };
        KeysOfRun(KEYS.get_or_init(fresh).clone())
    }
}

impl BuildHasher for KeysOfRun {
    type Hasher = AHasher;

    fn build_hasher(&self) -> AHasher {
        self.0.build_hasher()
    }
}
