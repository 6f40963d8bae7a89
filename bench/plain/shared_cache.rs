//! A plain cache that callers share: each shard behind a `Mutex`, which nobody keeps while the pool is read or a digest is computed.
//!
//!     rustc -O shared_cache.rs && ./shared_cache hits|apart|misses|own CALLERS SHARDS BLOCKS READS
//!
//! Each caller reads so many drawn blocks of 512 bytes of a pool in memory, and gives each back. It prints the reads of all callers a second. With
//! `hits` every block was read before; with `misses` the cache has room for a sixteenth of them. With `apart` the reads are hits, and each caller
//! reads only blocks of shards of its own, a fourth of them. With `own` they are hits too, and each caller has a cache of its own, which shows what the
//! machine gives to callers that share nothing.

#[allow(dead_code)]
#[path = "../../compare/key.rs"]
mod key;
#[allow(dead_code)]
#[path = "../../compare/sha256.rs"]
mod sha256;
#[allow(dead_code)]
#[path = "../../compare/shard.rs"]
mod shard;

use key::Key;
use sha256::{Digest, sha256};
use shard::Shard;
use std::process::ExitCode;
use std::sync::{Arc, Mutex, PoisonError};
use std::thread;
use std::time::Instant;

const SIZE: u64 = 512;

struct Cache {
    shards: Vec<Mutex<Shard>>,
    pool: Vec<u8>,
}

/// A block that is held: its shard, its place there and its bytes.
struct Held {
    shard: usize,
    place: usize,
    bytes: Arc<[u8]>,
}

impl Cache {
    fn new(shards: usize, capacity: u64, pool: Vec<u8>) -> Cache {
        Cache { shards: (0..shards).map(|_| Mutex::new(Shard::new(capacity, 0))).collect(), pool }
    }

    fn with<T>(&self, shard: usize, change: impl FnOnce(&mut Shard) -> T) -> T {
        change(&mut self.shards[shard].lock().unwrap_or_else(PoisonError::into_inner))
    }

    /// Reads a block of this digest, and keeps it. A reader that finds a read in progress begins again.
    fn read(&self, key: Key, digest: Digest, tick: u64) -> Option<Held> {
        let shard = key.shard_of(self.shards.len());
        let place = loop {
            let found = self.with(shard, |it| match it.places.get(&key).copied() {
                Some(place) if !it.entries[place].state.is_ghost() => {
                    if it.entries[place].bytes.is_empty() {
                        return None;
                    }
                    it.hit(place, tick);
                    Some(Ok((place, it.entries[place].bytes.clone())))
                }
                _ => Some(Err(it.miss(key, tick))),
            });
            match found {
                Some(Ok((place, bytes))) => return Some(Held { shard, place, bytes }),
                Some(Err(place)) => break place,
                None => thread::yield_now(),
            }
        };
        let bytes: Arc<[u8]> = self.pool[key.offset as usize..][..key.size as usize].into();
        if sha256(&bytes) != digest {
            self.with(shard, |it| it.fail(place));
            return None;
        }
        self.with(shard, |it| it.arrive(place, digest, bytes.clone()));
        Some(Held { shard, place, bytes })
    }

    fn release(&self, held: Held) {
        self.with(held.shard, |it| it.release(held.place));
    }
}

/// Numbers below `blocks`, as `gen` draws them.
fn draws(seed: u64, blocks: u64) -> impl Iterator<Item = u64> {
    let mut x = seed;
    std::iter::repeat_with(move || {
        x = (x * 1_103_515_245 + 12_345) % (1 << 31);
        x / 65_536 % blocks
    })
}

fn key_of(block: u64) -> Key {
    Key { offset: block * SIZE, size: SIZE, birth: 1 }
}

fn caller(cache: &Cache, digest: Digest, seed: u64, blocks: u64, reads: usize, apart: bool) -> u64 {
    let mut sum = 0;
    let keys = draws(seed, blocks).map(key_of).filter(|key| !apart || key.shard_of(16) as u64 % 4 == seed % 4);
    for (tick, key) in (1..).zip(keys.take(reads)) {
        if let Some(held) = cache.read(key, digest, tick) {
            sum += u64::from(held.bytes[0]) + 1;
            cache.release(held);
        }
    }
    sum
}

fn perform(words: &[String]) -> Option<()> {
    let [kind, numbers @ ..] = words else { return None };
    let numbers: Vec<u64> = numbers.iter().map(|word| word.parse().ok()).collect::<Option<_>>()?;
    let [callers, shards, blocks, reads] = numbers[..] else { return None };
    let room = if kind == "misses" { (blocks * SIZE / 16 / shards).max(4_096) } else { 2 * blocks * SIZE };
    let digest = sha256(&[0; SIZE as usize]);
    let caches: Vec<Cache> = (0..if kind == "own" { callers } else { 1 })
        .map(|_| Cache::new(shards as usize, room, vec![0; (blocks * SIZE) as usize]))
        .collect();
    if kind != "misses" {
        for (cache, block) in caches.iter().flat_map(|cache| (0..blocks).map(move |block| (cache, block))) {
            cache.release(cache.read(key_of(block), digest, 0)?);
        }
    }
    let start = Instant::now();
    let read: u64 = thread::scope(|scope| {
        let caches = &caches;
        let callers: Vec<_> = (0..callers)
            .map(|n| {
                let cache = &caches[n as usize % caches.len()];
                let apart = kind == "apart";
                scope.spawn(move || caller(cache, digest, n + 1, blocks, reads as usize, apart))
            })
            .collect();
        callers.into_iter().map(|it| it.join().unwrap_or(0)).sum()
    });
    println!("{:.0}", read as f64 / start.elapsed().as_secs_f64());
    Some(())
}

fn main() -> ExitCode {
    let words: Vec<String> = std::env::args().skip(1).collect();
    match perform(&words) {
        Some(()) => ExitCode::SUCCESS,
        None => ExitCode::from(2),
    }
}
