//! The cache device: its header, its log blocks, its ring, what a start finds on it, and what a feed writes.

use crate::key::{Key, LARGEST_BLOCK};
use crate::sha256::{Digest, sha256};
use std::collections::HashSet;
use std::fs::{File, OpenOptions};
use std::io;
use std::os::unix::fs::FileExt;

const SECTOR: u64 = 512;
const START: u64 = 4_096;
const SHORTEST: u64 = 266_240;
const LONGEST: u64 = 1 << 32;
const LOG_BLOCK: u64 = 65_536;
/// how many entries a log block has, by its version
const MOST_ENTRIES: [u64; 2] = [1_022, 681];
const ENTRY: [usize; 2] = [64, 96];
const LARGEST_OLD_BLOCK: u64 = 1_048_576;
const HEADER_MAGIC: u64 = 0x5a46_5343_4143_4845;
const LOG_MAGIC: u64 = 0x4c4f_4742_4c4b_4844;

#[derive(Clone, Copy)]
struct LogPtr {
    place: u64,
    count: u64,
    digest: Digest,
}

#[derive(Clone, Copy)]
struct Ring {
    end: u64,
    hand: u64,
    evict: u64,
    top: u64,
    lap: u64,
}

#[derive(Clone, Copy, PartialEq)]
enum Part {
    Lower,
    Upper,
    Dead,
}

/// A block that the device has: its key, its place and lap, and the digest that its log entry tells.
#[derive(Clone, Copy)]
pub struct Live {
    pub key: Key,
    pub place: u64,
    lap: u64,
    pub digest: Option<Digest>,
}

pub struct Device {
    file: File,
    len: u64,
    ring: Ring,
    newest: Option<LogPtr>,
    second: Option<LogPtr>,
    live: Vec<Live>,
}

/// A block that is written: its key, its digest and its bytes.
pub type Block = (Key, Digest, std::sync::Arc<[u8]>);

/// how many blocks one log block tells of
pub const RUN: usize = MOST_ENTRIES[1] as usize;

/// What a start finds: the entries of the log blocks, the newest first, and why the walk ended.
pub struct Found {
    pub device: Option<Device>,
    pub restored: Vec<Live>,
    pub stop: String,
}

fn number_at(bytes: &[u8], at: usize) -> u64 {
    u64::from_le_bytes(bytes[at..at + 8].try_into().expect("eight bytes"))
}

fn put_number(bytes: &mut [u8], at: usize, number: u64) {
    bytes[at..at + 8].copy_from_slice(&number.to_le_bytes());
}

fn is_zero(bytes: &[u8]) -> bool {
    bytes.iter().all(|byte| *byte == 0)
}

fn digest_at(bytes: &[u8], at: usize) -> Digest {
    bytes[at..at + 32].try_into().expect("thirty-two bytes")
}

/// The pointer to a log block that these 64 bytes are: none, one, or nothing that may stand there.
fn pointer(bytes: &[u8]) -> Option<Option<LogPtr>> {
    if is_zero(bytes) {
        return Some(None);
    }
    let count = number_at(bytes, 16);
    let is_one = number_at(bytes, 8) == LOG_BLOCK && (1..=MOST_ENTRIES[0]).contains(&count) && is_zero(&bytes[24..32]);
    is_one.then(|| Some(LogPtr { place: number_at(bytes, 0), count, digest: digest_at(bytes, 32) }))
}

fn put_pointer(bytes: &mut [u8], at: usize, pointer: Option<LogPtr>) {
    if let Some(LogPtr { place, count, digest }) = pointer {
        put_number(bytes, at, place);
        put_number(bytes, at + 8, LOG_BLOCK);
        put_number(bytes, at + 16, count);
        bytes[at + 32..at + 64].copy_from_slice(&digest);
    }
}

// ---- The ring ---------------------------------------------------------------------------------------------------------------

impl Ring {
    fn fresh(end: u64) -> Ring {
        Ring { end, hand: START, evict: START, top: START, lap: 1 }
    }

    fn part(&self, place: u64, size: u64) -> Part {
        let Some(end) = place.checked_add(size) else { return Part::Dead };
        if place >= START && end <= self.hand {
            Part::Lower
        } else if place >= self.evict && end <= self.top {
            Part::Upper
        } else {
            Part::Dead
        }
    }

    /// The lap of what lies in a part.
    fn lap_of(&self, part: Part) -> u64 {
        if part == Part::Upper { self.lap - 1 } else { self.lap }
    }

    fn holds(&self, live: &Live) -> bool {
        let part = self.part(live.place, live.key.size);
        part != Part::Dead && live.lap == self.lap_of(part)
    }

    /// Makes room for so many bytes ahead of the hand.
    fn make_room(&mut self, n: u64) {
        if self.hand + n <= self.end {
            self.evict = self.evict.max(self.hand + n);
        } else {
            (self.top, self.hand, self.evict) = (self.hand, START, START + n);
            self.lap = self.lap.saturating_add(1);
        }
    }
}

// ---- The start --------------------------------------------------------------------------------------------------------------

struct Header {
    version: u64,
    ring: Ring,
    newest: Option<LogPtr>,
    second: Option<LogPtr>,
}

fn header(bytes: &[u8], end: u64) -> Result<Header, &'static str> {
    if number_at(bytes, 0) != HEADER_MAGIC {
        return Err("magic");
    }
    let version = number_at(bytes, 8);
    if version != 1 && version != 2 {
        return Err("version");
    }
    if sha256(&bytes[..480]) != digest_at(bytes, 480) {
        return Err("digest");
    }
    let [ring_start, ring_end, hand, evict, top, lap, most] = [16, 24, 32, 40, 48, 56, 64].map(|at| number_at(bytes, at));
    let is_place = |place: u64| place % SECTOR == 0 && (START..=ring_end).contains(&place);
    let places = ring_start == START && ring_end == end && [hand, evict, top].into_iter().all(is_place) && hand <= evict;
    let rest = lap >= 1 && most == MOST_ENTRIES[version as usize - 1] && is_zero(&bytes[72..128]) && is_zero(&bytes[256..480]);
    let (newest, second) = (pointer(&bytes[128..192]), pointer(&bytes[192..256]));
    match (newest, second) {
        (Some(newest), Some(second)) if places && rest => {
            Ok(Header { version, ring: Ring { end, hand, evict, top, lap }, newest, second })
        }
        _ => Err("field"),
    }
}

struct LogBlock {
    lap: u64,
    version: u64,
    prev: Option<LogPtr>,
    entries: Vec<(Key, u64, Option<Digest>)>,
}

fn log_block(bytes: &[u8]) -> Result<LogBlock, &'static str> {
    if number_at(bytes, 0) != LOG_MAGIC {
        return Err("magic");
    }
    let [lap, count, version] = [8, 16, 24].map(|at| number_at(bytes, at));
    if lap < 1 || (version != 0 && version != 2) || !is_zero(&bytes[32..64]) {
        return Err("field");
    }
    let table = usize::from(version == 2);
    let prev = pointer(&bytes[64..128]).ok_or("field")?;
    if !(1..=MOST_ENTRIES[table]).contains(&count) || !is_zero(&bytes[128 + count as usize * ENTRY[table]..]) {
        return Err("field");
    }
    let entries = bytes[128..].chunks_exact(ENTRY[table]).take(count as usize).map(|bytes| entry(bytes, table).ok_or("field"));
    Ok(LogBlock { lap, version: table as u64 + 1, prev, entries: entries.collect::<Result<_, _>>()? })
}

fn entry(bytes: &[u8], table: usize) -> Option<(Key, u64, Option<Digest>)> {
    let [offset, size, birth, place] = [0, 8, 16, 24].map(|at| number_at(bytes, at));
    let largest = [LARGEST_OLD_BLOCK, LARGEST_BLOCK][table];
    let is_one = offset % SECTOR == 0 && size % SECTOR == 0 && (SECTOR..=largest).contains(&size) && birth >= 1 && place % SECTOR == 0;
    let (digest, rest) = if table == 1 { (Some(digest_at(bytes, 32)), &bytes[64..]) } else { (None, &bytes[32..]) };
    (is_one && is_zero(rest)).then_some((Key { offset, size, birth }, place, digest))
}

impl Device {
    /// The device in a file of this name, or why there is none: the file can't be had.
    pub fn open(name: &str) -> Option<(File, u64)> {
        let file = OpenOptions::new().read(true).write(true).open(name).ok()?;
        let about = file.metadata().ok()?;
        (!about.is_dir() && about.len() <= LONGEST).then(|| (file, about.len()))
    }

    /// Reads what the device has.
    pub fn start(file: File, len: u64) -> Found {
        if len < SHORTEST {
            return Found { device: None, restored: Vec::new(), stop: "short".into() };
        }
        let end = len / SECTOR * SECTOR;
        let mut sector = [0; SECTOR as usize];
        let found = file.read_exact_at(&mut sector, 0).map(|()| header(&sector, end));
        let mut device = Device { file, len, ring: Ring::fresh(end), newest: None, second: None, live: Vec::new() };
        let (restored, stop) = match found {
            Err(_) => (Vec::new(), "device".into()),
            Ok(Err(fault)) => (Vec::new(), format!("header {fault}")),
            Ok(Ok(header)) => {
                (device.ring, device.newest, device.second) = (header.ring, header.newest, header.second);
                device.walk(header.version)
            }
        };
        device.live = restored.iter().rev().copied().collect();
        Found { device: Some(device), restored, stop }
    }

    /// Goes from log block to log block, the newest first, and gives the first entry of each key.
    fn walk(&self, version: u64) -> (Vec<Live>, String) {
        let (mut restored, mut met) = (Vec::new(), HashSet::new());
        let (mut next, mut then) = (self.newest, self.second);
        let mut walked = 0;
        let stop = loop {
            let Some(ptr) = next else { break "zero".to_string() };
            let is_in_ring = ptr.place % SECTOR == 0 && ptr.place >= START && ptr.place <= self.ring.end - LOG_BLOCK;
            if !is_in_ring {
                break "outside".into();
            }
            let part = self.ring.part(ptr.place, LOG_BLOCK);
            if part == Part::Dead {
                break "evicted".into();
            }
            if walked + LOG_BLOCK > self.ring.end - START {
                break "length".into();
            }
            walked += LOG_BLOCK;
            let mut bytes = vec![0; LOG_BLOCK as usize];
            if self.file.read_exact_at(&mut bytes, ptr.place).is_err() {
                break "device".into();
            }
            if sha256(&bytes) != ptr.digest {
                break "block digest".into();
            }
            let block = match log_block(&bytes) {
                Ok(block) => block,
                Err(fault) => break format!("block {fault}"),
            };
            let lap = self.ring.lap_of(part);
            if block.version > version || block.lap != lap || block.entries.len() as u64 != ptr.count {
                break "block field".into();
            }
            for (key, place, digest) in block.entries.into_iter().rev() {
                let ends = place.checked_add(key.size).is_some_and(|end| end <= ptr.place);
                if ends && self.ring.part(place, key.size) == part && met.insert(key) {
                    restored.push(Live { key, place, lap, digest });
                }
            }
            (next, then) = (then, block.prev);
        };
        (restored, stop)
    }

    /// Half of the ring, which no feed of a shard goes past.
    pub fn half(&self) -> u64 {
        (self.ring.end - START) / 2
    }

    /// The bytes at a place, where the device has so many.
    pub fn read(&self, place: u64, size: u64) -> Option<io::Result<Vec<u8>>> {
        place.checked_add(size).filter(|end| *end <= self.len)?;
        let mut bytes = vec![0; size as usize];
        Some(self.file.read_exact_at(&mut bytes, place).map(|()| bytes))
    }

    // ---- the writes of a feed

    fn write_header(&self) -> io::Result<()> {
        let Ring { end, hand, evict, top, lap } = self.ring;
        let mut bytes = [0; SECTOR as usize];
        let numbers = [HEADER_MAGIC, 2, START, end, hand, evict, top, lap, MOST_ENTRIES[1]];
        for (i, number) in numbers.into_iter().enumerate() {
            put_number(&mut bytes, i * 8, number);
        }
        put_pointer(&mut bytes, 128, self.newest);
        put_pointer(&mut bytes, 192, self.second);
        let digest = sha256(&bytes[..480]);
        bytes[480..].copy_from_slice(&digest);
        self.file.write_all_at(&bytes, 0)
    }

    /// Makes room for a batch, and gives the live entries that fall. They do also where the device fails.
    pub fn begin(&mut self, blocks: &[Block]) -> (Vec<Live>, io::Result<()>) {
        let sum: u64 = blocks.iter().map(|(key, ..)| key.size).sum();
        self.ring.make_room(sum + LOG_BLOCK * (blocks.len() as u64).div_ceil(MOST_ENTRIES[1]));
        let ring = self.ring;
        let (live, dropped) = self.live.iter().partition(|live| ring.holds(live));
        self.live = live;
        (dropped, self.write_header())
    }

    /// Writes one run of a batch and the log block behind it, and gives the place of each block. Where the device fails, the hand goes back and nothing new is live.
    pub fn write_run(&mut self, run: &[Block]) -> io::Result<Vec<u64>> {
        let (hand, newest, second) = (self.ring.hand, self.newest, self.second);
        let written = self.try_run(run);
        if written.is_err() {
            (self.ring.hand, self.newest, self.second) = (hand, newest, second);
        }
        let places = written?;
        let lap = self.ring.lap;
        self.live.extend(run.iter().zip(&places).map(|((key, digest, _), place)| Live { key: *key, place: *place, lap, digest: Some(*digest) }));
        Ok(places)
    }

    fn try_run(&mut self, run: &[Block]) -> io::Result<Vec<u64>> {
        let mut places = Vec::new();
        let mut log = vec![0; LOG_BLOCK as usize];
        put_number(&mut log, 0, LOG_MAGIC);
        put_number(&mut log, 8, self.ring.lap);
        put_number(&mut log, 16, run.len() as u64);
        put_number(&mut log, 24, 2);
        put_pointer(&mut log, 64, self.second);
        for (i, (key, digest, bytes)) in run.iter().enumerate() {
            let (place, at) = (self.ring.hand, 128 + i * ENTRY[1]);
            for (j, number) in [key.offset, key.size, key.birth, place].into_iter().enumerate() {
                put_number(&mut log, at + j * 8, number);
            }
            log[at + 32..at + 64].copy_from_slice(digest);
            self.file.write_all_at(bytes, place)?;
            places.push(place);
            self.ring.hand += key.size;
        }
        self.file.write_all_at(&log, self.ring.hand)?;
        let ptr = LogPtr { place: self.ring.hand, count: run.len() as u64, digest: sha256(&log) };
        self.ring.hand += LOG_BLOCK;
        (self.newest, self.second) = (Some(ptr), self.newest);
        self.write_header()?;
        Ok(places)
    }
}
