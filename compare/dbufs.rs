//! The dbufs of one cell: objects' blocks that are cached, changed and pinned.

use crate::key::Key;
use crate::trace::{Oid, Pointer};
use std::collections::{BTreeMap, HashMap};
use std::sync::Arc;

/// A block that a dbuf keeps: its bytes, and its place in its shard but where it went past the cache.
pub struct Kept {
    pub key: Key,
    pub place: Option<usize>,
    pub bytes: Arc<[u8]>,
}

enum Content {
    Clean { pointer: Pointer, kept: Option<Kept> },
    Dirty(Vec<u8>),
}

struct Dbuf {
    content: Content,
    pins: u64,
    /// when it was last used, by the cell's clock
    used: u64,
}

pub struct Cell {
    limit: u64,
    clock: u64,
    dbufs: HashMap<Oid, Dbuf>,
    /// what may be evicted, by its last use, and how many bytes that is
    evictable: BTreeMap<u64, Oid>,
    evictable_bytes: u64,
}

impl Dbuf {
    fn evictable_bytes(&self) -> Option<u64> {
        match &self.content {
            Content::Clean { pointer, kept: Some(_) } if self.pins == 0 => Some(pointer.key.size),
            _ => None,
        }
    }
}

impl Cell {
    pub fn new(limit: u64) -> Cell {
        Cell { limit, clock: 0, dbufs: HashMap::new(), evictable: BTreeMap::new(), evictable_bytes: 0 }
    }

    pub fn map(&mut self, oid: Oid, pointer: Pointer) {
        self.dbufs.insert(oid, Dbuf { content: Content::Clean { pointer, kept: None }, pins: 0, used: 0 });
    }

    /// The block's size, where the Oid is mapped.
    pub fn size(&self, oid: Oid) -> Option<u64> {
        Some(match &self.dbufs.get(&oid)?.content {
            Content::Clean { pointer, .. } => pointer.key.size,
            Content::Dirty(bytes) => bytes.len() as u64,
        })
    }

    /// The pointer that has to be read before the block can be used.
    pub fn to_load(&self, oid: Oid) -> Option<Pointer> {
        match self.dbufs.get(&oid)?.content {
            Content::Clean { pointer, kept: None } => Some(pointer),
            _ => None,
        }
    }

    pub fn bytes(&self, oid: Oid) -> &[u8] {
        match &self.dbufs[&oid].content {
            Content::Clean { kept: Some(kept), .. } => &kept.bytes,
            Content::Clean { .. } => &[],
            Content::Dirty(bytes) => bytes,
        }
    }

    /// Changes a dbuf, and keeps what may be evicted in step. A use makes it the last one used.
    fn change<T>(&mut self, oid: Oid, is_use: bool, change: impl FnOnce(&mut Dbuf) -> T) -> T {
        let fresh = || Dbuf { content: Content::Dirty(Vec::new()), pins: 0, used: 0 };
        let dbuf = self.dbufs.entry(oid).or_insert_with(fresh);
        if let Some(size) = dbuf.evictable_bytes() {
            self.evictable.remove(&dbuf.used);
            self.evictable_bytes -= size;
        }
        if is_use {
            self.clock += 1;
            dbuf.used = self.clock;
        }
        let changed = change(dbuf);
        if let Some(size) = dbuf.evictable_bytes() {
            self.evictable.insert(dbuf.used, oid);
            self.evictable_bytes += size;
        }
        changed
    }

    pub fn load(&mut self, oid: Oid, block: Kept) {
        self.change(oid, true, |dbuf| {
            if let Content::Clean { kept, .. } = &mut dbuf.content {
                *kept = Some(block);
            }
        });
    }

    pub fn touch(&mut self, oid: Oid) {
        self.change(oid, true, |_| ());
    }

    /// Makes the block these bytes, and gives what it kept.
    pub fn put(&mut self, oid: Oid, bytes: Vec<u8>) -> Option<Kept> {
        let content = Content::Dirty(bytes);
        match self.change(oid, true, |dbuf| std::mem::replace(&mut dbuf.content, content)) {
            Content::Clean { kept, .. } => kept,
            Content::Dirty(_) => None,
        }
    }

    /// Writes over some bytes of the block, which is made private first: gives what it kept.
    pub fn patch(&mut self, oid: Oid, at: usize, bytes: &[u8]) -> Option<Kept> {
        self.change(oid, true, |dbuf| {
            let kept = match &mut dbuf.content {
                Content::Clean { kept, .. } => kept.take(),
                Content::Dirty(_) => None,
            };
            if let Some(kept) = &kept {
                dbuf.content = Content::Dirty(kept.bytes.to_vec());
            }
            if let Content::Dirty(block) = &mut dbuf.content {
                block[at..at + bytes.len()].copy_from_slice(bytes);
            }
            kept
        })
    }

    pub fn pin(&mut self, oid: Oid) {
        self.change(oid, true, |dbuf| dbuf.pins += 1);
    }

    /// Whether there was a pin to take.
    pub fn unpin(&mut self, oid: Oid) -> bool {
        if self.dbufs.get(&oid).is_none_or(|dbuf| dbuf.pins == 0) {
            return false;
        }
        self.change(oid, true, |dbuf| dbuf.pins -= 1);
        true
    }

    /// Gives up the block of the dbuf that was used longest ago, where the cell has more than its limit.
    pub fn evict(&mut self) -> Option<Kept> {
        if self.evictable_bytes <= self.limit {
            return None;
        }
        let oid = *self.evictable.first_key_value()?.1;
        self.take_kept(oid)
    }

    fn take_kept(&mut self, oid: Oid) -> Option<Kept> {
        self.change(oid, false, |dbuf| match &mut dbuf.content {
            Content::Clean { kept, .. } => kept.take(),
            Content::Dirty(_) => None,
        })
    }

    pub fn dirty(&self) -> impl Iterator<Item = (Oid, &Vec<u8>)> {
        self.dbufs.iter().filter_map(|(oid, dbuf)| match &dbuf.content {
            Content::Dirty(bytes) => Some((*oid, bytes)),
            Content::Clean { .. } => None,
        })
    }

    /// A sync wrote the block, which is clean now.
    pub fn synced(&mut self, oid: Oid, pointer: Pointer, kept: Kept) {
        self.change(oid, false, |dbuf| dbuf.content = Content::Clean { pointer, kept: Some(kept) });
    }

    /// Gives up every block that is kept, by rising Oid.
    pub fn end(&mut self) -> Vec<Kept> {
        let mut oids: Vec<Oid> = self.dbufs.keys().copied().collect();
        oids.sort_unstable();
        oids.into_iter().filter_map(|oid| self.take_kept(oid)).collect()
    }
}
