//! The reader of traces.

use crate::key::{Key, LARGEST_BLOCK};
use crate::sha256::Digest;
use std::collections::HashSet;

pub const LONGEST_TRACE: usize = 67_108_864;
pub const MOST_OPS: usize = 1_000_000;
const MOST_BLOCKS: usize = 100_000;
const MOST_OBJECTS: usize = 100_000;
const LAST: u64 = 1 << 62;
const MOST: u64 = 1 << 32;
const MOST_SHOWN: u64 = 64;

#[derive(Clone, Copy)]
pub struct Pointer {
    pub key: Key,
    pub digest: Digest,
}

/// The number of an object, and of a block in it.
pub type Oid = (u64, u64);

/// What a line asks for.
pub enum What {
    Read { block: usize, tick: u64, at: u64, len: u64 },
    Hold { block: usize, tick: u64 },
    Drop { block: usize },
    Get { oid: Oid, tick: u64, at: u64, len: u64 },
    Put { oid: Oid, size: u64, fill: u8 },
    Patch { oid: Oid, tick: u64, at: u64, bytes: Vec<u8> },
    Pin { oid: Oid, tick: u64 },
    Unpin { oid: Oid },
    Feed,
    Txg { tick: u64 },
    Cap { capacity: u64 },
}

/// An operation, by a caller where it is one's.
pub struct Op {
    pub caller: usize,
    pub what: What,
}

impl Op {
    /// The declared block that it names.
    pub fn block(&self) -> Option<usize> {
        match self.what {
            What::Read { block, .. } | What::Hold { block, .. } | What::Drop { block } => Some(block),
            _ => None,
        }
    }

    /// The word of its line.
    pub fn word(&self) -> &'static str {
        match self.what {
            What::Read { .. } => "read",
            What::Hold { .. } => "hold",
            What::Drop { .. } => "drop",
            What::Get { .. } => "get",
            What::Put { .. } => "put",
            What::Patch { .. } => "patch",
            What::Pin { .. } => "pin",
            What::Unpin { .. } => "unpin",
            What::Feed => "feed",
            What::Txg { .. } => "txg",
            What::Cap { .. } => "cap",
        }
    }

    /// The block of an object that it names.
    pub fn dbuf(&self) -> Option<Oid> {
        match self.what {
            What::Get { oid, .. } | What::Put { oid, .. } | What::Patch { oid, .. } | What::Pin { oid, .. } | What::Unpin { oid } => Some(oid),
            _ => None,
        }
    }
}

pub struct Trace {
    pub callers: usize,
    pub shards: usize,
    pub cells: usize,
    pub capacity: u64,
    pub min_time: u64,
    pub dbuf_bytes: u64,
    /// the most bytes that a feed picks of a shard, and how many times that it looks at
    pub write_max: u64,
    pub headroom: u64,
    pub blocks: Vec<Pointer>,
    pub objects: Vec<(Oid, usize)>,
    pub ops: Vec<Op>,
}

/// A decimal number from `low` to `high`, with no sign and no leading zero.
pub fn number(field: &[u8], low: u64, high: u64) -> Option<u64> {
    let plain = !field.is_empty() && field.iter().all(u8::is_ascii_digit) && (field.len() == 1 || field[0] != b'0');
    let value = std::str::from_utf8(field).ok()?.parse().ok()?;
    (plain && low <= value && value <= high).then_some(value)
}

/// Bytes spelled in lower-case hexadecimal digits, `least` to `most` of them.
pub fn run_of_bytes(field: &[u8], least: usize, most: usize) -> Option<Vec<u8>> {
    let nibble = |c: u8| match c {
        b'0'..=b'9' => Some(c - b'0'),
        b'a'..=b'f' => Some(c - b'a' + 10),
        _ => None,
    };
    if field.len() % 2 != 0 || !(least..=most).contains(&(field.len() / 2)) {
        return None;
    }
    field.chunks_exact(2).map(|pair| Some(nibble(pair[0])? << 4 | nibble(pair[1])?)).collect()
}

pub fn digest(field: &[u8]) -> Option<Digest> {
    run_of_bytes(field, 32, 32)?.try_into().ok()
}

/// What is read of a trace, with what the order of its lines goes by.
struct Draft {
    trace: Trace,
    has_bounds: bool,
    mapped: HashSet<Oid>,
}

/// The trace that a text is, or the number of the first line at fault. There are at most so many callers and shards.
pub fn parse(text: &[u8], most: u64) -> Result<Trace, usize> {
    let mut draft = None;
    for (i, line) in text.split(|byte| *byte == b'\n').enumerate() {
        if !line.is_empty() && line[0] != b'#' {
            parse_line(line, most, &mut draft).ok_or(i + 1)?;
        }
    }
    draft.map(|draft| draft.trace).ok_or(1)
}

fn parse_line(line: &[u8], most: u64, draft: &mut Option<Draft>) -> Option<()> {
    let mut fields = [&[][..]; 8];
    let mut count = 0;
    for field in line.split(|byte| *byte == b' ') {
        *fields.get_mut(count)? = field;
        count += 1;
    }
    let (word, fields) = (fields[0], &fields[1..count]);
    match draft {
        None if word == b"arc" => *draft = Some(arc(fields, most)?),
        None => return None,
        Some(draft) => match (word, fields) {
            (b"block", [offset, size, birth, bytes]) => draft.block(offset, size, birth, bytes)?,
            (b"l2", [write_max, headroom]) => draft.bounds(write_max, headroom)?,
            (b"object", [object, i, block]) => draft.object(object, i, block)?,
            _ => draft.operation(word, fields)?,
        },
    }
    Some(())
}

fn arc(fields: &[&[u8]], most: u64) -> Option<Draft> {
    let [callers, shards, buckets, cells, capacity, min_time, dbuf_bytes] = fields else { return None };
    number(buckets, 1, 256)?;
    let shards = number(shards, 1, most)?;
    let trace = Trace {
        callers: number(callers, 1, most)? as usize,
        shards: shards as usize,
        cells: number(cells, 1, 16)? as usize,
        capacity: number(capacity, 4_096, MOST / shards)?,
        min_time: number(min_time, 0, MOST)?,
        dbuf_bytes: number(dbuf_bytes, 0, MOST)?,
        write_max: 8_388_608,
        headroom: 2,
        blocks: Vec::new(),
        objects: Vec::new(),
        ops: Vec::new(),
    };
    Some(Draft { trace, has_bounds: false, mapped: HashSet::new() })
}

fn oid(object: &[u8], block: &[u8]) -> Option<Oid> {
    Some((number(object, 0, LAST)?, number(block, 0, LAST)?))
}

fn tick(field: &[u8]) -> Option<u64> {
    number(field, 0, LAST)
}

/// Where a window starts, and its length.
fn window(at: &[u8], len: &[u8]) -> Option<(u64, u64)> {
    Some((number(at, 0, MOST - 1)?, number(len, 0, MOST_SHOWN)?))
}

impl Draft {
    fn block(&mut self, offset: &[u8], size: &[u8], birth: &[u8], bytes: &[u8]) -> Option<()> {
        let key = Key { offset: number(offset, 0, LAST)?, size: number(size, 0, MOST)?, birth: number(birth, 0, LAST)? };
        self.trace.blocks.push(Pointer { key, digest: digest(bytes)? });
        (self.trace.ops.is_empty() && self.trace.blocks.len() <= MOST_BLOCKS).then_some(())
    }

    fn bounds(&mut self, write_max: &[u8], headroom: &[u8]) -> Option<()> {
        (self.trace.write_max, self.trace.headroom) = (number(write_max, 512, MOST)?, number(headroom, 1, 64)?);
        (self.trace.ops.is_empty() && !std::mem::replace(&mut self.has_bounds, true)).then_some(())
    }

    fn object(&mut self, object: &[u8], i: &[u8], block: &[u8]) -> Option<()> {
        let (oid, block) = (oid(object, i)?, self.declared(block)?);
        self.trace.objects.push((oid, block));
        (self.trace.ops.is_empty() && self.mapped.insert(oid) && self.trace.objects.len() <= MOST_OBJECTS).then_some(())
    }

    /// A block that an earlier line declares.
    fn declared(&self, field: &[u8]) -> Option<usize> {
        number(field, 0, (self.trace.blocks.len() as u64).checked_sub(1)?).map(|block| block as usize)
    }

    fn caller(&self, field: &[u8]) -> Option<usize> {
        number(field, 0, self.trace.callers as u64 - 1).map(|caller| caller as usize)
    }

    fn operation(&mut self, word: &[u8], fields: &[&[u8]]) -> Option<()> {
        let (caller, what) = match (word, fields) {
            (b"read", [n, t, x, at, len]) => {
                let (at, len) = window(at, len)?;
                (self.caller(n)?, What::Read { block: self.declared(x)?, tick: tick(t)?, at, len })
            }
            (b"hold", [n, t, x]) => (self.caller(n)?, What::Hold { block: self.declared(x)?, tick: tick(t)? }),
            (b"drop", [n, x]) => (self.caller(n)?, What::Drop { block: self.declared(x)? }),
            (b"get", [n, t, j, i, at, len]) => {
                let (at, len) = window(at, len)?;
                (self.caller(n)?, What::Get { oid: oid(j, i)?, tick: tick(t)?, at, len })
            }
            (b"put", [n, t, j, i, size, fill]) => {
                tick(t)?;
                let size = number(size, 512, LARGEST_BLOCK).filter(|size| size % 512 == 0)?;
                (self.caller(n)?, What::Put { oid: oid(j, i)?, size, fill: run_of_bytes(fill, 1, 1)?[0] })
            }
            (b"patch", [n, t, j, i, at, bytes]) => {
                let bytes = run_of_bytes(bytes, 1, MOST_SHOWN as usize)?;
                (self.caller(n)?, What::Patch { oid: oid(j, i)?, tick: tick(t)?, at: number(at, 0, MOST - 1)?, bytes })
            }
            (b"pin", [n, t, j, i]) => (self.caller(n)?, What::Pin { oid: oid(j, i)?, tick: tick(t)? }),
            (b"unpin", [n, j, i]) => (self.caller(n)?, What::Unpin { oid: oid(j, i)? }),
            (b"feed", []) => (0, What::Feed),
            (b"txg", [t]) => (0, What::Txg { tick: tick(t)? }),
            (b"cap", [c]) => (0, What::Cap { capacity: number(c, 4_096, MOST / self.trace.shards as u64)? }),
            _ => return None,
        };
        self.trace.ops.push(Op { caller, what });
        (self.trace.ops.len() <= MOST_OPS).then_some(())
    }
}
