//! A hash of short texts that is made quickly, with a number that is another one in each map: so nobody can choose texts of which many have the same hash.

use std::collections::HashSet;
use std::hash::{BuildHasher, Hasher, RandomState};

/// The number of a map.
#[derive(Debug, Clone, Copy)]
pub struct Keyed(u64);

impl Default for Keyed {
    fn default() -> Keyed {
        Keyed(RandomState::new().hash_one(0))
    }
}

impl BuildHasher for Keyed {
    type Hasher = Mixed;

    fn build_hasher(&self) -> Mixed {
        Mixed { mixed: self.0, odd: self.0 | 1 }
    }
}

/// What was hashed so far.
#[derive(Debug, Clone, Copy)]
pub struct Mixed {
    mixed: u64,
    odd: u64,
}

impl Hasher for Mixed {
    fn write(&mut self, bytes: &[u8]) {
        bytes.iter().for_each(|byte| self.write_u64(u64::from(*byte)));
    }

    fn write_u64(&mut self, word: u64) {
        let product = u128::from(self.mixed ^ word) * u128::from(self.odd);
        self.mixed = product as u64 ^ (product >> 64) as u64;
    }

    fn finish(&self) -> u64 {
        self.mixed
    }
}

pub type KeyedSet<K> = HashSet<K, Keyed>;
