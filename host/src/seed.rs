//! Random bytes for the end of the work memory. From them the library computes where it looks for a term: whoever makes a job can't
//! foretell them, and so can't choose terms that take long to find.
use std::{collections::hash_map::RandomState, hash::BuildHasher};

/// The bytes of a seed, which are the last of the lent work memory.
pub const SEED_BYTES: usize = 4;

/// Seeds, each other than the one before.
#[derive(Default)]
pub struct Seeds {
    keys: RandomState,
    count: u64,
}

impl Seeds {
    /// Puts the next seed at the end of the memory, where it has room for one.
    pub fn put(&mut self, work: &mut [u8]) {
        let Some(place) = work.last_chunk_mut::<SEED_BYTES>() else { return };
        self.count = self.count.wrapping_add(1);
        *place = (self.keys.hash_one(self.count) as u32).to_le_bytes();
    }
}
