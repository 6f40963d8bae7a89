//! The plain cache with the locks that the proved one has: the headers of a bucket behind a `Mutex`, and a shard behind another. Each hit and
//! each drop takes the bucket of its key and then the shard, and looks the key up in both. So its time beside that of `shared_cache.rs` is what
//! this form costs by itself, without any proof.
//!
//!     rustc -O two_locks.rs && ./two_locks CALLERS SHARDS BLOCKS READS [lists]
//!
//! With `lists` a shard's sequences are a part of their own that is asked by key, as those of the proved one are: one look-up more for each hit
//! and each drop, of the key's place on its sequence.
//!
//! Each caller reads so many drawn blocks of 512 bytes, all of which are cached, and gives each back. It prints the reads of all callers a second.

#[allow(dead_code)]
#[path = "../../compare/key.rs"]
mod key;
#[allow(dead_code)]
#[path = "../../compare/sha256.rs"]
mod sha256;
#[allow(dead_code)]
#[path = "../../compare/shard.rs"]
mod shard;

use key::Key;
use sha256::{Digest, sha256};
use shard::Shard;
use std::collections::HashMap;
use std::process::ExitCode;
use std::sync::{Arc, Mutex, MutexGuard, PoisonError};
use std::thread;
use std::time::Instant;

const SIZE: u64 = 512;
const BUCKETS: usize = 256;

struct Header {
    key: Key,
    digest: Digest,
    bytes: Arc<[u8]>,
}

/// A shard, and the places of its keys on their sequences where those are asked by key.
struct Part {
    shard: Shard,
    members: Option<HashMap<Key, usize>>,
}

impl Part {
    /// The place of a key on its sequence, which is that of its entry.
    fn place(&self, key: Key) -> Option<usize> {
        let place = *self.shard.places.get(&key)?;
        match &self.members {
            Some(members) => members.get(&key).copied().filter(|it| *it == place),
            None => Some(place),
        }
    }
}

struct Cache {
    buckets: Vec<Mutex<Vec<Header>>>,
    shards: Vec<Mutex<Part>>,
}

fn lock<T>(it: &Mutex<T>) -> MutexGuard<'_, T> {
    it.lock().unwrap_or_else(PoisonError::into_inner)
}

/// The key of a block.
fn key_of(block: u64) -> Key {
    Key { offset: block * SIZE, size: SIZE, birth: 1 }
}

impl Cache {
    /// A cache that has all blocks.
    fn new(shards: usize, blocks: u64, lists: bool) -> Cache {
        let cache = Cache {
            buckets: (0..shards * BUCKETS).map(|_| Mutex::default()).collect(),
            shards: (0..shards)
                .map(|_| Mutex::new(Part { shard: Shard::new(2 * blocks * SIZE, 0), members: lists.then(HashMap::new) }))
                .collect(),
        };
        let bytes: Arc<[u8]> = vec![0; SIZE as usize].into();
        let digest = sha256(&bytes);
        for key in (0..blocks).map(key_of) {
            let bytes: Arc<[u8]> = bytes.to_vec().into();
            let mut part = lock(cache.shard(key));
            let place = part.shard.miss(key, 0);
            part.shard.arrive(place, digest, bytes.clone());
            part.shard.release(place);
            if let Some(members) = &mut part.members {
                members.insert(key, place);
            }
            lock(cache.bucket(key)).push(Header { key, digest, bytes });
        }
        cache
    }

    fn shard(&self, key: Key) -> &Mutex<Part> {
        &self.shards[key.shard_of(self.shards.len())]
    }

    /// Buckets are chosen by what the shards leave of a key's number.
    fn bucket(&self, key: Key) -> &Mutex<Vec<Header>> {
        &self.buckets[key.shard_of(self.buckets.len())]
    }

    fn hit(&self, key: Key, digest: Digest, tick: u64) -> Option<Arc<[u8]>> {
        let bucket = lock(self.bucket(key));
        let bytes = bucket.iter().find(|it| it.key == key && it.digest == digest)?.bytes.clone();
        let mut part = lock(self.shard(key));
        let place = part.place(key)?;
        part.shard.hit(place, tick);
        Some(bytes)
    }

    fn release(&self, key: Key) -> Option<()> {
        let _bucket = lock(self.bucket(key));
        let mut part = lock(self.shard(key));
        let place = part.place(key)?;
        part.shard.release(place);
        Some(())
    }
}

fn caller(cache: &Cache, digest: Digest, seed: u64, blocks: u64, reads: u64) -> u64 {
    let mut x = seed;
    let mut sum = 0;
    for tick in 1..=reads {
        x = (x * 1_103_515_245 + 12_345) % (1 << 31);
        let key = key_of(x / 65_536 % blocks);
        if let Some(bytes) = cache.hit(key, digest, tick) {
            sum += u64::from(bytes[0]) + 1;
            cache.release(key);
        }
    }
    sum
}

fn perform(words: &[String]) -> Option<()> {
    let (words, lists) = match words {
        [words @ .., last] if last == "lists" => (words, true),
        _ => (words, false),
    };
    let numbers: Vec<u64> = words.iter().map(|word| word.parse().ok()).collect::<Option<_>>()?;
    let [callers, shards, blocks, reads] = numbers[..] else { return None };
    let digest = sha256(&[0; SIZE as usize]);
    let cache = Cache::new(shards as usize, blocks, lists);
    let start = Instant::now();
    let read: u64 = thread::scope(|scope| {
        let cache = &cache;
        let callers: Vec<_> = (0..callers).map(|n| scope.spawn(move || caller(cache, digest, n + 1, blocks, reads))).collect();
        callers.into_iter().map(|it| it.join().unwrap_or(0)).sum()
    });
    println!("{:.0}", read as f64 / start.elapsed().as_secs_f64());
    Some(())
}

fn main() -> ExitCode {
    let words: Vec<String> = std::env::args().skip(1).collect();
    match perform(&words) {
        Some(()) => ExitCode::SUCCESS,
        None => ExitCode::from(2),
    }
}
