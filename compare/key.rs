//! The key of a block, and the shard that it belongs to.

use std::fmt::{self, Display};

pub const LARGEST_BLOCK: u64 = 16_777_216;

#[derive(Clone, Copy, Debug, PartialEq, Eq, Hash)]
pub struct Key {
    pub offset: u64,
    pub size: u64,
    pub birth: u64,
}

impl Display for Key {
    fn fmt(&self, f: &mut fmt::Formatter<'_>) -> fmt::Result {
        write!(f, "{} {} {}", self.offset, self.size, self.birth)
    }
}

impl Key {
    /// Its shard, of so many.
    pub fn shard_of(self, shards: usize) -> usize {
        let sum =
            (self.offset / 512).wrapping_mul(0x9e37_79b9_7f4a_7c15).wrapping_add(self.size / 512 * 31).wrapping_add(self.birth);
        ((sum ^ (sum >> 32)) % shards as u64) as usize
    }
}
