//! What a plain program takes for the work of `arc_tool - - gen SEED BLOCKS OPS`, and nothing else:
//!
//!     rustc --edition 2024 -O arc_plain.rs && ./arc_plain SEED BLOCKS OPS
//!
//! It makes the list of the operations, does them with the shard of the simulation, keeps what each was answered, and prints the same report. It
//! counts the events and keeps none: one table, entries that carry their links, no turns, no threads. So it is a floor of time and memory, for
//! `bench/plain.sh`.

mod key;
mod sha256;
#[allow(dead_code)]
mod shard;
#[allow(dead_code)]
mod trace;

use key::Key;
use sha256::{Digest, sha256};
use shard::{Event, Shard, State};
use std::process::ExitCode;
use std::sync::Arc;
use trace::{Op, Pointer, What};

/// What a read was answered.
enum Reply {
    Ok { from: &'static str, digest: Digest, shown: Vec<u8> },
    Refused,
}

/// How many events of each kind there were.
#[derive(Default)]
struct Counts {
    hit: u64,
    miss: u64,
    pool: u64,
}

impl Counts {
    /// Counts the events that the shard has just made, and forgets them.
    fn take(&mut self, history: &mut Vec<Event>) {
        for event in history.drain(..) {
            match event {
                Event::Hit(..) => self.hit += 1,
                Event::Miss(..) => self.miss += 1,
                Event::Arrive(..) => self.pool += 1,
                _ => {}
            }
        }
    }
}

/// The reads that a seed draws, as operations of a trace, which may be of any kind.
fn draw(seed: u64, blocks: u64, ops: u64) -> Vec<Op> {
    let mut x = seed;
    let mut next = || {
        x = (x * 1_103_515_245 + 12_345) % (1 << 31);
        (x / 65_536 % blocks) as usize
    };
    (0..ops).map(|i| Op { caller: 0, what: What::Read { block: next(), tick: i + 1, at: 0, len: 0 } }).collect()
}

/// Does one read, and gives its hold back. A generated trace has no other operations.
fn answer(shard: &mut Shard, pointers: &[Pointer], op: &Op) -> Reply {
    let What::Read { block, tick, at, len } = op.what else { return Reply::Refused };
    let pointer = &pointers[block];
    let found = shard.places.get(&pointer.key).copied();
    let (from, place) = match found.filter(|place| shard.entries[*place].state.has_bytes()) {
        Some(place) if shard.entries[place].digest == pointer.digest => {
            shard.hit(place, tick);
            ("hit", place)
        }
        Some(_) => return Reply::Refused,
        None => {
            let place = shard.miss(pointer.key, tick);
            let bytes = vec![0; pointer.key.size as usize];
            let digest = sha256(&bytes);
            if digest != pointer.digest {
                shard.fail(place);
                return Reply::Refused;
            }
            shard.arrive(place, digest, bytes.into());
            ("pool", place)
        }
    };
    let bytes: Arc<[u8]> = shard.entries[place].bytes.clone();
    let shown = bytes[at as usize..][..len as usize].to_vec();
    shard.release(place);
    Reply::Ok { from, digest: pointer.digest, shown }
}

fn main() -> ExitCode {
    let words: Vec<u64> = std::env::args().skip(1).filter_map(|word| word.parse().ok()).collect();
    let [seed, blocks, ops] = words[..] else { return ExitCode::from(2) };
    let digest = sha256(&[0; 512]);
    let pointers: Vec<_> = (0..blocks).map(|i| Pointer { key: Key { offset: i * 512, size: 512, birth: 1 }, digest }).collect();
    let ops = draw(seed, blocks, ops);
    let mut shard = Shard::new((blocks * 128).max(4_096), 0);
    let mut counts = Counts::default();
    let mut replies = Vec::new();
    for op in &ops {
        replies.push(answer(&mut shard, &pointers, op));
        counts.take(&mut shard.history);
    }
    let refused = replies.iter().any(|reply| match reply {
        Reply::Ok { from, digest, shown } => from.is_empty() || digest.is_empty() || !shown.is_empty(),
        Reply::Refused => true,
    });
    let [anon, mru, mru_ghost, mfu, mfu_ghost, l2] =
        [State::Anon, State::Mru, State::MruGhost, State::Mfu, State::MfuGhost, State::L2Only].map(|state| shard.sizes[state as usize]);
    let (c, p) = (shard.capacity, shard.target);
    let Counts { hit, miss, pool } = counts;
    println!("arc 1");
    println!("shard 0 c {c} p {p} anon {anon} mru {mru} mrug {mru_ghost} mfu {mfu} mfug {mfu_ghost} l2 {l2}");
    println!("count hit {hit} miss {miss} past 0 pool {pool} l2 0 pass 0 set 0");
    println!("end {}", u8::from(refused));
    ExitCode::from(u8::from(refused))
}
