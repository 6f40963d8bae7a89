//! What main.rt.in does, without dbufs: `plain CELLS LIMIT CALLERS` prints nanoseconds a get of plain maps with an LRU list each, behind a `Mutex`
//! each, that keep so many bytes each; `plain sync` prints nanoseconds a block of a plain loop that hashes and writes.

#[allow(dead_code)]
mod sha256;

use sha256::sha256;
use std::collections::HashMap;
use std::sync::{Mutex, PoisonError};
use std::thread;
use std::time::Instant;

const OIDS: u64 = 100_000;
const GETS: u64 = 1_000_000;
const DIRTY: u64 = 10_000;
const NONE: usize = usize::MAX;

struct Entry {
    block: u64,
    bytes: Vec<u8>,
    older: usize,
    newer: usize,
}

/// The blocks that are kept, by their numbers, and from the oldest use to the newest.
struct Map {
    places: HashMap<u64, usize>,
    entries: Vec<Entry>,
    oldest: usize,
    newest: usize,
    most: usize,
}

impl Map {
    fn new(most: usize) -> Map {
        Map { places: HashMap::new(), entries: Vec::new(), oldest: NONE, newest: NONE, most }
    }

    fn unlink(&mut self, place: usize) {
        let (older, newer) = (self.entries[place].older, self.entries[place].newer);
        if older == NONE { self.oldest = newer } else { self.entries[older].newer = newer }
        if newer == NONE { self.newest = older } else { self.entries[newer].older = older }
    }

    fn link(&mut self, place: usize) {
        self.entries[place].older = self.newest;
        self.entries[place].newer = NONE;
        if self.newest == NONE { self.oldest = place } else { self.entries[self.newest].newer = place }
        self.newest = place;
    }

    /// The first byte of a block that is kept, which was used last then.
    fn first_of(&mut self, block: u64) -> Option<u8> {
        let &place = self.places.get(&block)?;
        self.unlink(place);
        self.link(place);
        Some(self.entries[place].bytes[0])
    }

    /// Keeps a block, in the place of the one that was used longest ago where there is no room. Another may have brought it meanwhile.
    fn keep(&mut self, block: u64, bytes: Vec<u8>) {
        if self.first_of(block).is_some() {
            return;
        }
        let place = if self.entries.len() < self.most {
            self.entries.push(Entry { block, bytes, older: NONE, newer: NONE });
            self.entries.len() - 1
        } else {
            let place = self.oldest;
            self.unlink(place);
            self.places.remove(&self.entries[place].block);
            self.entries[place].block = block;
            self.entries[place].bytes = bytes;
            place
        };
        self.places.insert(block, place);
        self.link(place);
    }
}

/// Reads a byte of so many drawn blocks. No lock is kept while the pool is read.
fn get_all(cells: &[Mutex<Map>], pool: &[u8], digests: &[[u8; 32]], seed: u64, gets: u64) -> u64 {
    let (mut x, mut sum) = (seed, 0u64);
    for _ in 0..gets {
        x = x.wrapping_mul(1_103_515_245).wrapping_add(12_345) % (1 << 31);
        let block = x / 64 % OIDS;
        let cell = &cells[block as usize % cells.len()];
        let found = cell.lock().unwrap_or_else(PoisonError::into_inner).first_of(block);
        let first = found.unwrap_or_else(|| {
            let bytes = pool[block as usize * 512..][..512].to_vec();
            assert!(sha256(&bytes) == digests[block as usize]);
            let first = bytes[0];
            cell.lock().unwrap_or_else(PoisonError::into_inner).keep(block, bytes);
            first
        });
        sum += u64::from(first);
    }
    sum
}

fn measure_gets(cells: usize, limit: usize, callers: u64) -> u64 {
    let mut pool = vec![0u8; OIDS as usize * 512];
    let mut digests = Vec::new();
    for (block, bytes) in pool.chunks_mut(512).enumerate() {
        bytes.fill((block % 251) as u8);
        digests.push(sha256(bytes));
    }
    let cells: Vec<Mutex<Map>> = (0..cells).map(|_| Mutex::new(Map::new(limit / 512))).collect();
    let (cells, pool, digests) = (&cells, &pool, &digests);
    let begun = Instant::now();
    thread::scope(|scope| {
        for seed in 1..=callers {
            scope.spawn(move || assert!(get_all(cells, pool, digests, seed, GETS / callers) > 0));
        }
    });
    begun.elapsed().as_nanos() as u64 / GETS
}

fn measure_sync() -> u64 {
    let mut pool = vec![0u8; 104_857_600];
    let dirty: Vec<Vec<u8>> = (0..DIRTY).map(|_| vec![7; 512]).collect();
    let mut place = OIDS as usize * 512;
    let mut sum = 0u64;
    let begun = Instant::now();
    for bytes in &dirty {
        sum += u64::from(sha256(bytes)[0]);
        pool[place..place + 512].copy_from_slice(bytes);
        place += 512;
    }
    assert!(sum > 0);
    begun.elapsed().as_nanos() as u64 / DIRTY
}

fn main() {
    let words: Vec<u64> = std::env::args().skip(1).filter_map(|word| word.parse().ok()).collect();
    let nanos = match words[..] {
        [cells, limit, callers] => measure_gets(cells as usize, limit as usize, callers),
        _ => measure_sync(),
    };
    println!("{nanos}");
}
