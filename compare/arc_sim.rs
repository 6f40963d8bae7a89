//! A plain simulation of the whole cache for one caller, with nothing but the standard library:
//!
//!     rustc -O arc_sim.rs && ./arc_sim POOL CACHE run [--events] <TRACE     or     ./arc_sim - - gen SEED BLOCKS OPS
//!
//! It reads every line of a trace, and prints what `arc_tool` prints: reads, objects with their dbufs and syncs, capacities, feeds of a
//! cache device and what a start finds on it. It was written from the rules alone and shares no code with the program, so it serves as a
//! baseline of speed and as a second opinion on each report, on the pool and on the device. What several callers are answered is no
//! function of the trace: then it ends with status 13, which says that it can't tell.
//! With `--undone=WORD,WORD..` in front of its words a trace with an operation of such a word is refused, as by a program that doesn't do it yet, and with
//! `--undone-alone=..` so is one of a single caller.

mod dbufs;
mod device;
mod key;
#[allow(dead_code)]
mod pool;
mod sha256;
#[allow(dead_code)]
mod shard;
#[allow(dead_code)]
mod trace;

use dbufs::{Cell, Kept};
use device::{Device, RUN};
use key::Key;
use pool::Pool;
use sha256::{Digest, Hex, sha256};
use shard::{Event, Shard};
use std::collections::{HashMap, VecDeque};
use std::fmt::{self, Display, Write as _};
use std::io::{self, Read, Write};
use std::process::ExitCode;
use std::sync::Arc;
use trace::{LONGEST_TRACE, MOST_OPS, Oid, Op, Pointer, Trace, What, number, parse};

/// The reads that a seed draws over blocks of zero bytes.
fn draw(seed: u64, blocks: u64, ops: u64) -> Trace {
    let digest = sha256(&[0; 512]);
    let mut x = seed;
    let mut next = || {
        x = (x * 1_103_515_245 + 12_345) % (1 << 31);
        (x / 65_536 % blocks) as usize
    };
    Trace {
        callers: 1,
        shards: 1,
        capacity: (blocks * 128).max(4_096),
        min_time: 0,
        cells: 1,
        dbuf_bytes: 0,
        write_max: 8_388_608,
        headroom: 2,
        objects: Vec::new(),
        blocks: (0..blocks).map(|i| Pointer { key: Key { offset: i * 512, size: 512, birth: 1 }, digest }).collect(),
        ops: (0..ops).map(|i| Op { caller: 0, what: What::Read { block: next(), tick: i + 1, at: 0, len: 0 } }).collect(),
    }
}

// ---- The run ----------------------------------------------------------------------------------------------------------------

/// Why a line is refused, as it is printed.
enum Refusal {
    Key(String),
    Digest(Digest),
    Pool,
    Window(u64, u64),
    Hold(usize),
    Block(Oid),
    Pin(Oid),
}

impl Display for Refusal {
    fn fmt(&self, f: &mut fmt::Formatter<'_>) -> fmt::Result {
        match self {
            Refusal::Key(fault) => write!(f, "refused key {fault}"),
            Refusal::Digest(found) => write!(f, "refused digest {}", Hex(found)),
            Refusal::Pool => f.write_str("refused pool"),
            Refusal::Window(end, size) => write!(f, "refused window {end} {size}"),
            Refusal::Hold(block) => write!(f, "refused hold {block}"),
            Refusal::Block((object, i)) => write!(f, "refused block {object} {i}"),
            Refusal::Pin((object, i)) => write!(f, "refused pin {object} {i}"),
        }
    }
}

/// Why a run ends before its last line.
#[derive(Clone, Copy)]
enum Stop {
    /// a write of a sync failed
    Fault,
    /// the pool has no room for a sync
    Full,
}

/// A block that was read: where its bytes are from, and its place in its shard but where it went past that.
struct Served {
    from: &'static str,
    shard: usize,
    block: Kept,
}

/// Bytes as a reply shows them.
struct Bytes<'a>(&'a [u8]);

impl Display for Bytes<'_> {
    fn fmt(&self, f: &mut fmt::Formatter<'_>) -> fmt::Result {
        if self.0.is_empty() { f.write_str("-") } else { Hex(self.0).fmt(f) }
    }
}

/// The numbers that events have: the feeder's, and that of a cell.
const FEEDER: u8 = 1;

fn number_of(cell: usize) -> u8 {
    cell as u8 + 2
}

/// What a device was found to have, as the report tells.
struct Rebuilt {
    entries: usize,
    stop: String,
}

struct Sim<'a> {
    trace: &'a Trace,
    pool: Pool,
    device: Option<Device>,
    rebuilt: Option<Rebuilt>,
    shards: Vec<Shard>,
    cells: Vec<Cell>,
    /// the kept reads of each block, oldest first, with the operations that kept them
    kept: HashMap<usize, VecDeque<(usize, Served)>>,
    /// where the next sync writes, and the number of the group
    next: u64,
    group: u64,
    replies: String,
    is_refused: bool,
    stop: Option<Stop>,
}

impl Sim<'_> {
    fn new(trace: &Trace, pool: Pool, device: Option<(std::fs::File, u64)>) -> Sim<'_> {
        let ends = trace.blocks.iter().filter(|it| pool.check(it.key).is_ok()).map(|it| it.key.offset + it.key.size);
        let mut sim = Sim {
            trace,
            next: ends.max().unwrap_or(0),
            pool,
            device: None,
            rebuilt: None,
            shards: (0..trace.shards).map(|_| Shard::new(trace.capacity, trace.min_time)).collect(),
            cells: (0..trace.cells).map(|_| Cell::new(trace.dbuf_bytes)).collect(),
            kept: HashMap::new(),
            group: 1,
            replies: String::new(),
            is_refused: false,
            stop: None,
        };
        for (oid, block) in &trace.objects {
            let cell = sim.cell_of(*oid);
            sim.cells[cell].map(*oid, trace.blocks[*block]);
        }
        if let Some((file, len)) = device {
            let found = Device::start(file, len);
            for live in &found.restored {
                sim.shards[live.key.shard_of(trace.shards)].restore(live.key, live.place, live.digest);
            }
            sim.device = found.device;
            sim.rebuilt = Some(Rebuilt { entries: found.restored.len(), stop: found.stop });
        }
        sim
    }

    fn cell_of(&self, (object, i): Oid) -> usize {
        let cells = self.cells.len() as u64;
        ((object % cells + i % cells) % cells) as usize
    }

    // ---- reads

    fn read_pool(&self, pointer: &Pointer) -> Result<Arc<[u8]>, Refusal> {
        let bytes = self.pool.read(pointer.key).map_err(|_| Refusal::Pool)?;
        let found = sha256(&bytes);
        if found == pointer.digest { Ok(bytes.into()) } else { Err(Refusal::Digest(found)) }
    }

    /// The bytes that the cache device has of a pointer: at a place that its entry had, unless that tells another digest.
    fn read_device(&self, pointer: &Pointer, place: Option<u64>, known: Option<Digest>) -> Option<Arc<[u8]>> {
        if known.is_some_and(|digest| digest != pointer.digest) {
            return None;
        }
        let bytes = self.device.as_ref()?.read(place?, pointer.key.size)?.ok()?;
        (sha256(&bytes) == pointer.digest).then(|| bytes.into())
    }

    fn read_block(&mut self, pointer: &Pointer, tick: u64) -> Result<Served, Refusal> {
        let key = pointer.key;
        self.pool.check(key).map_err(Refusal::Key)?;
        let s = key.shard_of(self.shards.len());
        let shard = &mut self.shards[s];
        let served = |from, place, bytes| Served { from, shard: s, block: Kept { key, place, bytes } };
        let found = shard.places.get(&key).copied();
        if let Some(place) = found.filter(|place| shard.entries[*place].state.has_bytes()) {
            let kept = shard.entries[place].digest;
            if kept == pointer.digest {
                shard.hit(place, tick);
                return Ok(served("hit", Some(place), shard.entries[place].bytes.clone()));
            }
            shard.history.push(Event::Past(key, kept));
            return Ok(served("past", None, self.read_pool(pointer)?));
        }
        let (on_device, known) = found.map_or((None, None), |at| (shard.entries[at].place(), shard.entries[at].known_digest()));
        let place = shard.miss(key, tick);
        if let Some(bytes) = self.read_device(pointer, on_device, known) {
            self.shards[s].arrive_from(place, pointer.digest, bytes.clone(), true);
            return Ok(served("l2", Some(place), bytes));
        }
        let read = self.read_pool(pointer);
        match read {
            Ok(bytes) => {
                self.shards[s].arrive(place, pointer.digest, bytes.clone());
                Ok(served("pool", Some(place), bytes))
            }
            Err(refusal) => {
                self.shards[s].fail(place);
                Err(refusal)
            }
        }
    }

    fn give_back(&mut self, n: u8, block: &Kept) {
        if let Some(place) = block.place {
            self.shards[block.key.shard_of(self.trace.shards)].drop_hold(n, place);
        }
    }

    // ---- objects

    /// Has the block of an Oid in its dbuf, where that is mapped and the window or the change ends inside.
    fn bring(&mut self, oid: Oid, end: u64, tick: u64) -> Result<usize, Refusal> {
        let c = self.cell_of(oid);
        let size = self.cells[c].size(oid).ok_or(Refusal::Block(oid))?;
        if end > size {
            return Err(Refusal::Window(end, size));
        }
        if let Some(pointer) = self.cells[c].to_load(oid) {
            let served = self.read_block(&pointer, tick)?;
            if let Some(place) = served.block.place {
                self.shards[served.shard].hand(place, number_of(c));
            }
            self.cells[c].load(oid, served.block);
        }
        Ok(c)
    }

    /// A dbuf's block is made private.
    fn make_private(&mut self, c: usize, kept: Option<Kept>) {
        if let Some(Kept { key, place: Some(place), .. }) = kept {
            self.shards[key.shard_of(self.trace.shards)].make_private(number_of(c), place);
        }
    }

    /// Evicts dbufs of a cell until the others are within its limit.
    fn evict(&mut self, c: usize) {
        while let Some(kept) = self.cells[c].evict() {
            self.give_back(number_of(c), &kept);
        }
    }

    /// Writes every dirty block to the pool, and says of how many and how many bytes.
    fn sync(&mut self, tick: u64) -> Result<(u64, u64), Stop> {
        let mut oids: Vec<(Oid, u64)> =
            self.cells.iter().flat_map(Cell::dirty).map(|(oid, bytes)| (oid, bytes.len() as u64)).collect();
        oids.sort_unstable();
        let sum: u64 = oids.iter().map(|(_, size)| size).sum();
        if sum > self.pool.len() - self.next {
            return Err(Stop::Full);
        }
        for (oid, size) in &oids {
            let c = self.cell_of(*oid);
            let bytes: Arc<[u8]> = self.cells[c].bytes(*oid).into();
            let key = Key { offset: self.next, size: *size, birth: self.group };
            let pointer = Pointer { key, digest: sha256(&bytes) };
            self.pool.write(key, &bytes).map_err(|_| Stop::Fault)?;
            self.next += size;
            let shard = &mut self.shards[key.shard_of(self.trace.shards)];
            let place = shard.put_in(number_of(c), key, pointer.digest, tick, bytes.clone());
            self.cells[c].synced(*oid, pointer, Kept { key, place: Some(place), bytes });
        }
        Ok((oids.len() as u64, sum))
    }

    // ---- the feed

    /// Feeds the device: how much was picked, how many bytes, how many places were given and taken, and whether it failed.
    fn feed(&mut self) -> String {
        let Some(device) = &mut self.device else { return "feed none".into() };
        let most = self.trace.write_max.min(device.half());
        let (mut picked, mut bytes, mut written, mut cleared) = (0, 0, 0, 0);
        let mut has_failed = false;
        for s in 0..self.shards.len() {
            let picks = self.shards[s].pick(most, self.trace.headroom);
            if picks.is_empty() {
                continue;
            }
            picked += picks.len();
            let blocks: Vec<_> = picks.iter().map(|place| self.shards[s].block(*place)).collect();
            bytes += blocks.iter().map(|(key, ..)| key.size).sum::<u64>();
            let (dropped, began) = device.begin(&blocks);
            for dropped in dropped {
                let shard = &mut self.shards[dropped.key.shard_of(self.trace.shards)];
                cleared += u64::from(shard.clear(dropped.key, dropped.place));
            }
            has_failed = began.is_err();
            for (picks, run) in picks.chunks(RUN).zip(blocks.chunks(RUN)) {
                // behind the first fault nothing is written
                let places = if has_failed { None } else { device.write_run(run).ok() };
                has_failed = places.is_none();
                for (i, place) in picks.iter().enumerate() {
                    match &places {
                        Some(places) => self.shards[s].set(*place, places[i]),
                        None => self.shards[s].leave(*place),
                    }
                }
                written += places.map_or(0, |places| places.len());
            }
            if has_failed {
                break;
            }
        }
        format!("feed picked {picked} bytes {bytes} written {written} cleared {cleared} {}", if has_failed { "fault" } else { "ok" })
    }

    // ---- the lines

    /// Answers an operation, and writes its reply but for a refusal.
    fn answer(&mut self, i: usize, op: &Op) -> Result<Result<(), Refusal>, Stop> {
        Ok(match &op.what {
            What::Feed => {
                let reply = self.feed();
                self.replies.push_str(&reply);
                Ok(())
            }
            What::Txg { tick } => {
                let (blocks, bytes) = self.sync(*tick)?;
                let _ = write!(self.replies, "txg {} blocks {blocks} bytes {bytes}", self.group);
                self.group += 1;
                Ok(())
            }
            What::Cap { capacity } => {
                self.shards.iter_mut().for_each(|shard| shard.resize(*capacity));
                let _ = write!(self.replies, "cap {capacity}");
                self.group += 1;
                Ok(())
            }
            What::Read { .. } | What::Hold { .. } | What::Drop { .. } => self.answer_read(i, &op.what),
            _ => self.answer_dbuf(&op.what),
        })
    }

    fn answer_read(&mut self, i: usize, what: &What) -> Result<(), Refusal> {
        match *what {
            What::Read { block, tick, at, len } => {
                let pointer = self.trace.blocks[block];
                if at + len > pointer.key.size {
                    return Err(Refusal::Window(at + len, pointer.key.size));
                }
                let Served { from, block, .. } = self.read_block(&pointer, tick)?;
                let window = &block.bytes[at as usize..][..len as usize];
                let _ = write!(self.replies, "ok {from} {} {}", Hex(&pointer.digest), Bytes(window));
                self.give_back(0, &block);
            }
            What::Hold { block, tick } => {
                let served = self.read_block(&self.trace.blocks[block], tick)?;
                let _ = write!(self.replies, "held {}", served.from);
                self.kept.entry(block).or_default().push_back((i, served));
            }
            What::Drop { block } => {
                let oldest = self.kept.get_mut(&block).and_then(VecDeque::pop_front);
                let (_, served) = oldest.ok_or(Refusal::Hold(block))?;
                self.give_back(0, &served.block);
                self.replies.push_str("dropped");
            }
            _ => {}
        }
        Ok(())
    }

    fn answer_dbuf(&mut self, what: &What) -> Result<(), Refusal> {
        let c = match *what {
            What::Get { oid, tick, at, len } => {
                let c = self.bring(oid, at + len, tick)?;
                self.cells[c].touch(oid);
                let bytes = self.cells[c].bytes(oid);
                let _ = write!(self.replies, "got {} {}", bytes.len(), Bytes(&bytes[at as usize..][..len as usize]));
                self.evict(c);
                return Ok(());
            }
            What::Put { oid, size, fill } => {
                let c = self.cell_of(oid);
                let kept = self.cells[c].put(oid, vec![fill; size as usize]);
                self.make_private(c, kept);
                c
            }
            What::Patch { oid, tick, at, ref bytes } => {
                let c = self.bring(oid, at + bytes.len() as u64, tick)?;
                let kept = self.cells[c].patch(oid, at as usize, bytes);
                self.make_private(c, kept);
                c
            }
            What::Pin { oid, tick } => {
                let c = self.bring(oid, 0, tick)?;
                self.cells[c].pin(oid);
                c
            }
            What::Unpin { oid } => {
                let c = self.cell_of(oid);
                if !self.cells[c].unpin(oid) {
                    return Err(Refusal::Pin(oid));
                }
                c
            }
            _ => return Ok(()),
        };
        self.replies.push_str("done");
        self.evict(c);
        Ok(())
    }

    /// Does all lines, and gives back what is kept at their end.
    fn run(&mut self, with_replies: bool) {
        for (i, op) in self.trace.ops.iter().enumerate() {
            let start = self.replies.len();
            let _ = write!(self.replies, "{i} ");
            match self.answer(i, op) {
                Ok(Ok(())) => {}
                Ok(Err(refusal)) => {
                    let _ = write!(self.replies, "{refusal}");
                    self.is_refused = true;
                }
                Err(stop) => {
                    self.replies.truncate(start);
                    self.stop = Some(stop);
                    break;
                }
            }
            self.replies.push('\n');
            if !with_replies {
                self.replies.truncate(start);
            }
        }
        let mut left: Vec<_> = std::mem::take(&mut self.kept).into_values().flatten().collect();
        left.sort_by_key(|(i, _)| *i);
        left.iter().for_each(|(_, served)| self.give_back(0, &served.block));
        for c in 0..self.cells.len() {
            self.cells[c].end().iter().for_each(|kept| self.give_back(number_of(c), kept));
        }
    }

    fn status(&self) -> u8 {
        match self.stop {
            Some(Stop::Fault) => 6,
            Some(Stop::Full) => 8,
            None => u8::from(self.is_refused),
        }
    }
}

// ---- The report -------------------------------------------------------------------------------------------------------------

impl Display for Event {
    fn fmt(&self, f: &mut fmt::Formatter<'_>) -> fmt::Result {
        match self {
            Event::Hit(key, tick) => write!(f, "hit 0 {key} {tick}"),
            Event::Miss(key, tick) => write!(f, "miss 0 {key} {tick}"),
            Event::Arrive(key, digest, from_device) => {
                write!(f, "arrive 0 {key} {} {}", Hex(digest), if *from_device { "l2" } else { "pool" })
            }
            Event::Fail(key) => write!(f, "fail 0 {key} pool"),
            Event::Drop(n, key) => write!(f, "drop {n} {key}"),
            Event::Past(key, digest) => write!(f, "past 0 {key} {}", Hex(digest)),
            Event::Hand(key, to) => write!(f, "hand 0 {key} {to}"),
            Event::Release(n, key, sole) => write!(f, "release {n} {key} {}", if *sole { "sole" } else { "shared" }),
            Event::Insert(of) => write!(f, "insert {} {} {} {}", of.0, of.1, Hex(&of.2), of.3),
            Event::Pick(key) => write!(f, "pick {FEEDER} {key}"),
            Event::FeedEnd => write!(f, "feedend {FEEDER}"),
            Event::Set(key, place) => write!(f, "set {FEEDER} {key} {place}"),
            Event::Leave(key) => write!(f, "leave {FEEDER} {key} device"),
            Event::Clear(key) => write!(f, "clear {FEEDER} {key}"),
            Event::Restore(of) => match &of.2 {
                Some(digest) => write!(f, "restore {FEEDER} {} {} {}", of.0, of.1, Hex(digest)),
                None => write!(f, "restore {FEEDER} {} {} -", of.0, of.1),
            },
            Event::Resize(capacity) => write!(f, "resize {FEEDER} {capacity}"),
        }
    }
}

/// The text of the report.
fn report(sim: Sim<'_>, events: bool) -> Result<String, fmt::Error> {
    let status = sim.status();
    let Sim { shards, replies, rebuilt, .. } = sim;
    let mut text = String::from("arc 1\n");
    text.push_str(&replies);
    drop(replies);
    if events {
        for (s, shard) in shards.iter().enumerate() {
            for (i, event) in shard.history.iter().enumerate() {
                writeln!(text, "e {s} {i} {event}")?;
            }
        }
    }
    for (s, shard) in shards.iter().enumerate() {
        let [anon, mru, mru_ghost, mfu, mfu_ghost, l2] = shard.sizes;
        let (c, p) = (shard.capacity, shard.target);
        writeln!(text, "shard {s} c {c} p {p} anon {anon} mru {mru} mrug {mru_ghost} mfu {mfu} mfug {mfu_ghost} l2 {l2}")?;
    }
    let count = |is: fn(&Event) -> bool| shards.iter().flat_map(|shard| &shard.history).filter(|event| is(event)).count();
    let hits = count(|event| matches!(event, Event::Hit(..)));
    let misses = count(|event| matches!(event, Event::Miss(..)));
    let past = count(|event| matches!(event, Event::Past(..)));
    let reads = count(|event| matches!(event, Event::Arrive(_, _, false) | Event::Fail(..) | Event::Past(..)));
    let from_device = count(|event| matches!(event, Event::Arrive(_, _, true)));
    let sets = count(|event| matches!(event, Event::Set(..)));
    writeln!(text, "count hit {hits} miss {misses} past {past} pool {reads} l2 {from_device} pass 0 set {sets}")?;
    if let Some(Rebuilt { entries, stop }) = rebuilt {
        writeln!(text, "rebuilt {entries} {stop}")?;
    }
    writeln!(text, "end {status}")?;
    Ok(text)
}

/// A number of the command line.
fn word_number(words: &[String], index: usize, low: u64, high: u64) -> Result<u64, usize> {
    words.get(index).and_then(|word| number(word.as_bytes(), low, high)).ok_or(index)
}

enum Command {
    Run { events: bool },
    Gen { seed: u64, blocks: u64, ops: u64 },
}

/// The command, or the index of the first wrong word.
fn command(words: &[String]) -> Result<Command, usize> {
    let (command, end) = match words.first().map(String::as_str) {
        Some("run") => match words.get(1).map(String::as_str) {
            None => (Command::Run { events: false }, 1),
            Some("--events") => (Command::Run { events: true }, 2),
            Some(_) => return Err(1),
        },
        Some("gen") => {
            let seed = word_number(words, 1, 0, (1 << 31) - 1)?;
            let blocks = word_number(words, 2, 1, 32_768)?;
            let ops = word_number(words, 3, 0, MOST_OPS as u64)?;
            (Command::Gen { seed, blocks, ops }, 4)
        }
        _ => return Err(0),
    };
    if words.len() > end { Err(end) } else { Ok(command) }
}

/// Whether an operation is one that is named as undone.
fn has_undone(trace: &Trace, undone: &[String]) -> bool {
    let list = |word: &'_ String| {
        let of_several = word.strip_prefix("--undone=");
        let list = of_several.or_else(|| word.strip_prefix("--undone-alone=").filter(|_| trace.callers == 1));
        list.unwrap_or("").split(',').map(str::to_string).collect::<Vec<_>>()
    };
    let named: Vec<String> = undone.iter().flat_map(list).collect();
    trace.ops.iter().any(|op| named.iter().any(|word| word == op.word()))
}

/// Does what the words ask, and gives the exit status.
fn perform() -> u8 {
    let words: Vec<String> = std::env::args().skip(1).collect();
    let is_undone = |word: &&String| word.starts_with("--undone");
    let (undone, words) = words.split_at(words.iter().take_while(is_undone).count());
    let [pool, cache, words @ ..] = words else { return 9 };
    let Some(pool) = Pool::open(pool) else { return 11 };
    let device = match cache.as_str() {
        "-" => None,
        name => match Device::open(name) {
            Some(device) => Some(device),
            None => return 12,
        },
    };
    let (trace, pool, device, events, with_replies) = match command(words) {
        Err(_) => return 2,
        Ok(Command::Gen { seed, blocks, ops }) => {
            (draw(seed, blocks, ops), Pool::Memory(vec![0; blocks as usize * 512]), None, false, false)
        }
        Ok(Command::Run { events }) => {
            let mut text = Vec::new();
            if io::stdin().take(LONGEST_TRACE as u64 + 1).read_to_end(&mut text).is_err() {
                return 4;
            }
            if text.len() > LONGEST_TRACE {
                return 3;
            }
            let Ok(trace) = parse(&text, 16) else { return 3 };
            if has_undone(&trace, undone) {
                return 3;
            }
            if trace.callers > 1 {
                return 13;
            }
            (trace, pool, device, events, true)
        }
    };
    let mut sim = Sim::new(&trace, pool, device);
    sim.run(with_replies);
    let status = sim.status();
    let Ok(text) = report(sim, events) else { return 7 };
    let mut out = io::stdout();
    if out.write_all(text.as_bytes()).and_then(|()| out.flush()).is_err() {
        return 5;
    }
    status
}

fn main() -> ExitCode {
    let status = perform();
    if status > 1 {
        eprintln!("arc_sim: status {status}");
    }
    ExitCode::from(status)
}
