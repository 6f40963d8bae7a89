//! Judges a log of events, with nothing but the standard library:
//!
//!     rustc -O arc_judge.rs && ./arc_judge <LOG
//!     ./arc_judge --lint <LOG
//!     ./arc_judge --draw SEED EVENTS
//!
//! It prints what `arc_tool - - check` prints and ends as that does: 0 for a legal log, 10 for one that isn't, 3 for a text that is none. With
//! --lint it prints `ok` and the number of events, or the first line at fault and the kind. With --draw it prints a log of about so many
//! events, nearly all of which may come where they stand.

mod event_words;
#[allow(dead_code)]
mod judged;
#[allow(dead_code)]
mod key;
#[allow(dead_code)]
mod sha256;
#[allow(dead_code)]
mod trace;

use event_words::{event_of, key_of};
use judged::{Event, FailedAt, Origin, Shard, State, What, Why};
use key::Key;
use sha256::{Digest, Hex};
use std::fmt::Write as _;
use std::io::{self, Read, Write as _};
use std::process::ExitCode;
use trace::number;

const LONGEST: usize = 67_108_864;
const MOST_EVENTS: usize = 1_000_000;
const MOST: u64 = 1 << 32;

type Kind = &'static str;

#[derive(Clone, Copy)]
struct Sizes {
    callers: u64,
    shards: u64,
    cells: u64,
    capacity: u64,
    min_time: u64,
    write_max: u64,
    headroom: u64,
}

struct Log {
    sizes: Sizes,
    has_bounds: bool,
    histories: Vec<Vec<Event>>,
    /// the shard in hand, and how many events there are
    shard: usize,
    count: usize,
}

// ---- The log ----------------------------------------------------------------------------------------------------------------

/// The log that a text is, or its first line at fault.
fn parse(text: &[u8]) -> Result<Log, (usize, Kind)> {
    if text.len() > LONGEST {
        return Err((text[..LONGEST].iter().filter(|byte| **byte == b'\n').count() + 1, "Length"));
    }
    let mut log = None;
    for (i, line) in text.split(|byte| *byte == b'\n').enumerate() {
        if !line.is_empty() && line[0] != b'#' {
            let fields: Vec<&[u8]> = line.split(|byte| *byte == b' ').collect();
            let read = match &mut log {
                None => sizes(&fields).map(|sizes| log = Some(empty(sizes))),
                Some(log) => log.add(&fields),
            };
            read.map_err(|kind| (i + 1, kind))?;
        }
    }
    log.ok_or((1, "First"))
}

fn empty(sizes: Sizes) -> Log {
    Log { sizes, has_bounds: false, histories: (0..sizes.shards).map(|_| vec![]).collect(), shard: 0, count: 0 }
}

fn has_shape(fields: &[&[u8]], count: usize) -> Result<(), Kind> {
    if fields.len() == count && fields.iter().all(|field| !field.is_empty()) { Ok(()) } else { Err("Shape") }
}

fn sizes(fields: &[&[u8]]) -> Result<Sizes, Kind> {
    if fields[0] != b"arc" {
        return Err("First");
    }
    has_shape(fields, 8)?;
    sizes_of(fields).ok_or("Number")
}

fn sizes_of(fields: &[&[u8]]) -> Option<Sizes> {
    number(fields[3], 1, 256)?;
    number(fields[7], 0, MOST)?;
    let shards = number(fields[2], 1, 16)?;
    Some(Sizes {
        callers: number(fields[1], 1, 16)?,
        shards,
        cells: number(fields[4], 1, 16)?,
        capacity: number(fields[5], 4096, MOST / shards)?,
        min_time: number(fields[6], 0, MOST)?,
        write_max: 8_388_608,
        headroom: 2,
    })
}

/// How many fields stand behind an event's name.
fn field_count(name: &[u8]) -> Option<usize> {
    Some(match name {
        b"feedend" => 1,
        b"resize" => 2,
        b"drop" | b"pick" | b"clear" => 4,
        b"pass" | b"hit" | b"miss" | b"fail" | b"past" | b"hand" | b"release" | b"set" | b"leave" => 5,
        b"arrive" | b"insert" | b"restore" => 6,
        _ => return None,
    })
}

impl Log {
    fn add(&mut self, fields: &[&[u8]]) -> Result<(), Kind> {
        match fields[0] {
            b"l2" => self.bounds(fields),
            b"e" => self.event(fields),
            _ => Err("Word"),
        }
    }

    fn bounds(&mut self, fields: &[&[u8]]) -> Result<(), Kind> {
        has_shape(fields, 3)?;
        let write_max = number(fields[1], 512, MOST).ok_or("Number")?;
        let headroom = number(fields[2], 1, 64).ok_or("Number")?;
        if self.has_bounds || self.count > 0 {
            return Err("Order");
        }
        (self.has_bounds, self.sizes.write_max, self.sizes.headroom) = (true, write_max, headroom);
        Ok(())
    }

    fn event(&mut self, fields: &[&[u8]]) -> Result<(), Kind> {
        let name = fields.get(3).ok_or("Shape")?;
        has_shape(fields, 4 + field_count(name).ok_or("Word")?)?;
        let (shard, index, event) = event_of(fields, self.sizes.shards, self.sizes.callers + self.sizes.cells).ok_or("Number")?;
        let next = if shard == self.shard { self.histories[shard].len() as u64 } else { 0 };
        let of_shard = key_of(&event).is_none_or(|key| key.shard_of(self.histories.len()) == shard);
        if shard < self.shard || index != next || !of_shard {
            return Err("Order");
        }
        if self.count == MOST_EVENTS {
            return Err("Count");
        }
        (self.shard, self.count) = (shard, self.count + 1);
        self.histories[shard].push(event);
        Ok(())
    }
}

// ---- The verdict ------------------------------------------------------------------------------------------------------------

fn opening(sizes: Sizes) -> Shard {
    Shard::new(sizes.capacity, sizes.min_time, sizes.write_max, sizes.headroom)
}

/// What is written for a log, and whether it is legal.
fn verdict(log: &Log) -> (String, bool) {
    let mut text = format!("check ok {}\n", log.count);
    for (s, history) in log.histories.iter().enumerate() {
        let mut shard = opening(log.sizes);
        for (index, event) in history.iter().enumerate() {
            if !shard.is_legal(event) {
                return (format!("check bad {s} {index}\nend 10\n"), false);
            }
            shard.step(event);
        }
        let _ = write!(text, "shard {s} c {} p {}", shard.capacity, shard.target);
        let states = [State::Anon, State::Mru, State::MruGhost, State::Mfu, State::MfuGhost, State::L2Only];
        for (word, state) in ["anon", "mru", "mrug", "mfu", "mfug", "l2"].iter().zip(states) {
            let _ = write!(text, " {word} {}", shard.size(state));
        }
        text.push('\n');
    }
    text.push_str("end 0\n");
    (text, true)
}

// ---- Drawn logs -------------------------------------------------------------------------------------------------------------

/// xorshift, as Marsaglia has it.
struct Draws(u64);

impl Draws {
    fn below(&mut self, most: u64) -> u64 {
        self.0 ^= self.0 << 13;
        self.0 ^= self.0 >> 7;
        self.0 ^= self.0 << 17;
        (self.0 >> 11) % most
    }

    fn of<T: Copy>(&mut self, all: &[T]) -> T {
        all[self.below(all.len() as u64) as usize]
    }
}

fn spelled(event: &Event) -> String {
    let n = event.n;
    match event.what {
        What::Pass(key, owner) => format!("pass {n} {key} {owner}"),
        What::Hit(key, tick) => format!("hit {n} {key} {tick}"),
        What::Miss(key, tick) => format!("miss {n} {key} {tick}"),
        What::Arrive(key, digest, Origin::Pool) => format!("arrive {n} {key} {} pool", Hex(&digest)),
        What::Arrive(key, digest, Origin::L2) => format!("arrive {n} {key} {} l2", Hex(&digest)),
        What::Fail(key, FailedAt::Pool) => format!("fail {n} {key} pool"),
        What::Fail(key, FailedAt::Unread) => format!("fail {n} {key} unread"),
        What::Drop(key) => format!("drop {n} {key}"),
        What::Past(key, kept) => format!("past {n} {key} {}", Hex(&kept)),
        What::Hand(key, to) => format!("hand {n} {key} {to}"),
        What::Insert(key, digest, tick) => format!("insert {n} {key} {} {tick}", Hex(&digest)),
        What::Release(key, sole) => format!("release {n} {key} {}", if sole { "sole" } else { "shared" }),
        What::Pick(key) => format!("pick {n} {key}"),
        What::FeedEnd => format!("feedend {n}"),
        What::Set(key, place) => format!("set {n} {key} {place}"),
        What::Leave(key, Why::Gone) => format!("leave {n} {key} gone"),
        What::Leave(key, Why::Device) => format!("leave {n} {key} device"),
        What::Leave(key, Why::Memory) => format!("leave {n} {key} memory"),
        What::Clear(key) => format!("clear {n} {key}"),
        What::Restore(key, place, Some(digest)) => format!("restore {n} {key} {place} {}", Hex(&digest)),
        What::Restore(key, place, None) => format!("restore {n} {key} {place} -"),
        What::Resize(c) => format!("resize {n} {c}"),
    }
}

fn drawn_event(draws: &mut Draws, sizes: Sizes, shard: &Shard, keys: &[Key], tick: u64) -> Event {
    let parties = sizes.callers + 1 + sizes.cells;
    let key = draws.of(keys);
    let anyone = draws.below(parties);
    let kind = draws.below(40);
    // what ends a read or a hold is mostly made by one who has it
    let n = if (8..=24).contains(&kind) && draws.below(4) > 0 { shard.holder(key).unwrap_or(anyone) } else { anyone };
    let digest: Digest = [draws.below(2) as u8; 32];
    let what = match kind {
        0..=7 => What::Miss(key, tick),
        8..=15 => What::Arrive(key, digest, if draws.below(3) == 0 { Origin::L2 } else { Origin::Pool }),
        16..=21 => What::Drop(key),
        22 => What::Fail(key, draws.of(&[FailedAt::Pool, FailedAt::Unread])),
        23 => What::Hand(key, draws.below(parties)),
        24 => What::Release(key, draws.below(2) == 0),
        25..=28 => What::Hit(key, tick),
        29 => What::Past(key, digest),
        30 => What::Insert(key, digest, tick),
        31 | 32 => What::Pass(key, draws.below(parties)),
        33 => What::Pick(shard.candidate().unwrap_or(key)),
        34 => What::FeedEnd,
        35 | 36 => What::Set(shard.first_picked().unwrap_or(key), 4096 + 512 * draws.below(64)),
        37 => What::Leave(shard.first_picked().unwrap_or(key), draws.of(&[Why::Gone, Why::Device, Why::Memory])),
        38 if draws.below(4) == 0 => What::Resize(draws.of(&[4096, 5000, 8192, 4095, MOST, MOST + 1])),
        38 => What::Clear(key),
        _ => What::Restore(key, 4096 + 512 * draws.below(64), if draws.below(2) == 0 { None } else { Some(digest) }),
    };
    Event { n, what }
}

/// A log of about so many events. Where one is drawn that may not come, it is mostly drawn anew.
fn drawn(seed: u64, events: u64) -> String {
    let mut draws = Draws(seed.wrapping_mul(0x9e37_79b9_7f4a_7c15) | 1);
    let shards = draws.of(&[1, 1, 2, 3, 16]);
    let capacity = draws.of(&[4096, 4096, 5000, 8192, 65536]);
    let (callers, cells, min_time) = (draws.of(&[1, 1, 2, 4, 16]), draws.of(&[1, 2, 16]), draws.of(&[0, 0, 3]));
    let (write_max, headroom) = (draws.of(&[512, 2048, 4096, 8_388_608]), draws.of(&[1, 2, 64]));
    let sizes = Sizes { callers, shards, cells, capacity, min_time, write_max, headroom };
    let mut text = format!("arc {callers} {shards} 16 {cells} {capacity} {min_time} 4096\n");
    if write_max != 8_388_608 || headroom != 2 {
        let _ = writeln!(text, "l2 {write_max} {headroom}");
    }
    for s in 0..shards as usize {
        let of_shard = (0..4096).map(|i| Key { offset: 512 * i, size: draws.of(&[512, 512, 1024, 2048]), birth: 1 });
        let keys: Vec<Key> = of_shard.filter(|key| key.shard_of(shards as usize) == s).take(12).collect();
        let (mut shard, mut index, mut tick) = (opening(sizes), 0, 0);
        for _ in 0..draws.below(2 * events / shards + 1) * 8 {
            tick += draws.of(&[0, 1, 1, 2, 5]);
            let event = drawn_event(&mut draws, sizes, &shard, &keys, tick);
            let is_legal = shard.is_legal(&event);
            if is_legal || draws.below(20 * events) == 0 {
                let _ = writeln!(text, "e {s} {index} {}", spelled(&event));
                index += 1;
            }
            if is_legal {
                shard.step(&event);
            }
        }
    }
    text
}

fn main() -> ExitCode {
    let words: Vec<String> = std::env::args().skip(1).collect();
    if let [draw, seed, events] = &words[..]
        && draw == "--draw"
        && let (Ok(seed), Ok(events)) = (seed.parse(), events.parse::<u64>())
    {
        print!("{}", drawn(seed, events.max(1)));
        return ExitCode::SUCCESS;
    }
    let mut text = vec![];
    if io::stdin().read_to_end(&mut text).is_err() {
        return ExitCode::from(4);
    }
    let is_lint = words == ["--lint"];
    let (told, status) = match parse(&text) {
        Ok(log) if is_lint => (format!("ok {}\n", log.count), 0),
        Ok(log) => {
            let (told, is_legal) = verdict(&log);
            (told, if is_legal { 0 } else { 10 })
        }
        Err((line, kind)) if is_lint => (format!("bad {line} {kind}\n"), 3),
        Err(_) => (String::new(), 3),
    };
    match io::stdout().write_all(told.as_bytes()) {
        Ok(()) => ExitCode::from(status),
        Err(_) => ExitCode::from(5),
    }
}
