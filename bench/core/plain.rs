//! The plain simulation's shard (../../compare/shard.rs) on the same events as main.rt.in. It knows no feed, so picks are a walk of its own.

mod key;
mod sha256;

include!("shard.rs");

use std::time::Instant;

const TIMED: u64 = 20_000;
const DIGEST: Digest = [7; 32];

fn block(i: u64) -> Key {
    Key { offset: i * 512, size: 512, birth: 1 }
}

fn fetch(shard: &mut Shard, i: u64) {
    let place = shard.miss(block(i), i);
    let bytes = shard.no_bytes.clone();
    shard.arrive(place, DIGEST, bytes);
    shard.release(place);
}

fn tell(what: &str, keys: u64, begun: Instant, count: u64) {
    println!("{what} {keys} {count} {}", begun.elapsed().as_nanos() as u64 / count.max(1));
}

/// The keys of a sequence from its oldest on, as many as a feed picks.
fn pick_all(shard: &Shard) -> Vec<(Key, Digest)> {
    let mut picked = Vec::new();
    let mut place = shard.sequences[State::Mru as usize].tail;
    while place != NONE && picked.len() < 10_000 {
        let entry = &shard.entries[place];
        picked.push((entry.key, entry.digest));
        place = entry.newer;
    }
    picked
}

fn measure(keys: u64) {
    let mut shard = Shard::new(keys * 512, 0);
    let begun = Instant::now();
    (0..keys).for_each(|i| fetch(&mut shard, i));
    tell("filling", keys, begun, keys);
    let begun = Instant::now();
    (keys..keys + TIMED).for_each(|i| fetch(&mut shard, i));
    tell("miss", keys, begun, TIMED);
    let begun = Instant::now();
    let picked = pick_all(&shard);
    tell("pick", keys, begun, picked.len() as u64);
    let begun = Instant::now();
    let mut made = 0;
    for i in 0..TIMED {
        if let Some(&place) = shard.places.get(&block(TIMED + i % keys.min(TIMED))) {
            if shard.entries[place].state.is_ghost() {
                continue;
            }
            shard.hit(place, i);
            shard.release(place);
            made += 1;
        }
    }
    tell("hit", keys, begun, made);
    let large = Key { offset: 1 << 50, size: 1 << 24, birth: 1 };
    let begun = Instant::now();
    let _ = shard.miss(large, 1 << 40);
    tell("large", keys, begun, 32_768.min(keys));
}

fn main() {
    [1_000, 16_000, 100_000, 1_000_000].into_iter().for_each(measure);
}
