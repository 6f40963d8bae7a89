//! The least that a hit and its drop change for other callers, and nothing else of a cache: the lock of the key's shard, the holds on the key, its
//! place on the shard's list, and an event of 80 bytes each. There is no look-up, no bucket and no block. All else that a hit does is stood for by
//! so many multiplications, which no other caller sees and which wait for no memory. So it shows what these changes alone cost callers together.
//!
//!     rustc -O list_moves.rs && ./list_moves CALLERS SHARDS BLOCKS READS WORK
//!
//! It prints the hits of all callers a second.

use std::cell::UnsafeCell;
use std::hint;
use std::process::ExitCode;
use std::sync::atomic::{AtomicBool, Ordering};
use std::thread;
use std::time::Instant;

const NONE: usize = usize::MAX;

/// A key's place on its list, in a line of memory of its own.
#[repr(align(64))]
#[derive(Clone, Copy)]
struct Node {
    before: usize,
    behind: usize,
    holds: u64,
    tick: u64,
}

struct List {
    head: usize,
    nodes: Vec<Node>,
    history: Vec<[u64; 10]>,
}

impl List {
    fn take_off(&mut self, at: usize) {
        let Node { before, behind, .. } = self.nodes[at];
        if before == NONE {
            self.head = behind;
        } else {
            self.nodes[before].behind = behind;
        }
        if behind != NONE {
            self.nodes[behind].before = before;
        }
    }

    fn put_at_head(&mut self, at: usize) {
        let behind = self.head;
        (self.nodes[at].before, self.nodes[at].behind) = (NONE, behind);
        if behind != NONE {
            self.nodes[behind].before = at;
        }
        self.head = at;
    }

    fn hit(&mut self, at: usize, tick: u64) {
        if self.nodes[at].holds == 0 {
            self.take_off(at);
        }
        self.nodes[at].holds += 1;
        self.nodes[at].tick = tick;
        self.history.push([tick; 10]);
    }

    fn drop_one(&mut self, at: usize) {
        self.nodes[at].holds -= 1;
        if self.nodes[at].holds == 0 {
            self.put_at_head(at);
        }
        self.history.push([at as u64; 10]);
    }
}

/// A list behind a lock on which callers spin, which is the cheapest where nobody keeps it for long.
#[repr(align(128))]
struct Shard {
    taken: AtomicBool,
    list: UnsafeCell<List>,
}

// SAFETY: the list is reached in `with` alone, between taking the lock and giving it back.
unsafe impl Sync for Shard {}

impl Shard {
    fn new(keys: usize, events: usize) -> Shard {
        let node = Node { before: NONE, behind: NONE, holds: 0, tick: 0 };
        let mut list = List { head: NONE, nodes: vec![node; keys], history: Vec::with_capacity(events) };
        (0..keys).for_each(|at| list.put_at_head(at));
        Shard { taken: AtomicBool::new(false), list: UnsafeCell::new(list) }
    }

    fn with(&self, change: impl FnOnce(&mut List)) {
        while self.taken.swap(true, Ordering::Acquire) {
            while self.taken.load(Ordering::Relaxed) {
                hint::spin_loop();
            }
        }
        // SAFETY: the lock was just taken.
        change(unsafe { &mut *self.list.get() });
        self.taken.store(false, Ordering::Release);
    }
}

fn work(seed: u64, times: u64) -> u64 {
    (0..times).fold(seed, |x, _| x.wrapping_mul(0x9e37_79b9_7f4a_7c15).rotate_left(7))
}

fn caller(shards: &[Shard], seed: u64, blocks: u64, reads: u64, times: u64) -> u64 {
    let (mut x, mut sum) = (seed, 0);
    for tick in 0..reads {
        x = (x * 1_103_515_245 + 12_345) % (1 << 31);
        let block = (x / 65_536 % blocks) as usize;
        let (shard, at) = (&shards[block % shards.len()], block / shards.len());
        sum ^= work(x, times / 2);
        shard.with(|list| list.hit(at, tick));
        sum ^= work(sum, times / 2);
        shard.with(|list| list.drop_one(at));
    }
    sum
}

fn perform(words: &[String]) -> Option<()> {
    let numbers: Vec<u64> = words.iter().map(|word| word.parse().ok()).collect::<Option<_>>()?;
    let [callers, count, blocks, reads, times] = numbers[..] else { return None };
    let events = 2 * reads * callers;
    let shards: Vec<Shard> = (0..count).map(|_| Shard::new((blocks / count) as usize, events as usize)).collect();
    let start = Instant::now();
    let shown = thread::scope(|scope| {
        let shards = &shards;
        let callers: Vec<_> = (0..callers).map(|n| scope.spawn(move || caller(shards, n + 1, blocks, reads, times))).collect();
        callers.into_iter().fold(0, |sum, it| sum ^ it.join().unwrap_or(0))
    });
    let rate = (callers * reads) as f64 / start.elapsed().as_secs_f64();
    hint::black_box(shown);
    println!("{rate:.0}");
    Some(())
}

fn main() -> ExitCode {
    let words: Vec<String> = std::env::args().skip(1).collect();
    match perform(&words) {
        Some(()) => ExitCode::SUCCESS,
        None => ExitCode::from(2),
    }
}
