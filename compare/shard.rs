//! One shard of the cache: an entry a key, four sequences, and every event that was made.

use crate::key::Key;
use crate::sha256::Digest;
use std::collections::HashMap;
use std::sync::Arc;

#[derive(Clone, Copy, PartialEq, Eq)]
pub enum State {
    Anon,
    Mru,
    MruGhost,
    Mfu,
    MfuGhost,
    /// only a place on the cache device is known
    L2Only,
}

impl State {
    pub fn is_ghost(self) -> bool {
        matches!(self, State::MruGhost | State::MfuGhost)
    }

    /// Whether an entry in this state has its bytes in memory, or is being read.
    pub fn has_bytes(self) -> bool {
        matches!(self, State::Anon | State::Mru | State::Mfu)
    }
}

/// What was done; what is rare stands behind a pointer, so that the others are small.
pub enum Event {
    Hit(Key, u64),
    Miss(Key, u64),
    Arrive(Key, Digest, bool),
    Fail(Key),
    /// by the number of a caller or a cell
    Drop(u8, Key),
    Past(Key, Digest),
    Hand(Key, u8),
    Release(u8, Key, bool),
    Insert(Box<(u8, Key, Digest, u64)>),
    Pick(Key),
    FeedEnd,
    Set(Key, u64),
    /// the device failed before the key got a place
    Leave(Key),
    Clear(Key),
    Restore(Box<(Key, u64, Option<Digest>)>),
    Resize(u64),
}

const NONE: usize = usize::MAX;

/// What stands for no place on the cache device: places are multiples of 512.
const NO_PLACE: u64 = u64::MAX;

/// What stands for the digest of an entry that has none, as one that came with an old log block.
const NO_DIGEST: Digest = [0; 32];

/// One entry of the table, and a node of its state's sequence where it stands on that.
pub struct Entry {
    key: Key,
    pub state: State,
    pub holds: u64,
    last: u64,
    pub digest: Digest,
    pub bytes: Arc<[u8]>,
    place: u64,
    newer: usize,
    older: usize,
}

impl Entry {
    /// Its place on the cache device.
    pub fn place(&self) -> Option<u64> {
        (self.place != NO_PLACE).then_some(self.place)
    }

    /// The digest of its bytes, where that is known.
    pub fn known_digest(&self) -> Option<Digest> {
        (self.digest != NO_DIGEST).then_some(self.digest)
    }
}

/// A sequence of entries by their places, newest first.
#[derive(Clone, Copy)]
struct Sequence {
    head: usize,
    tail: usize,
}

pub struct Shard {
    pub capacity: u64,
    pub target: u64,
    min_time: u64,
    pub places: HashMap<Key, usize>,
    pub entries: Vec<Entry>,
    free: Vec<usize>,
    sequences: [Sequence; 6],
    pub sizes: [u64; 6],
    no_bytes: Arc<[u8]>,
    pub history: Vec<Event>,
}

impl Shard {
    pub fn new(capacity: u64, min_time: u64) -> Shard {
        Shard {
            capacity,
            target: capacity / 2,
            min_time,
            places: HashMap::new(),
            entries: Vec::new(),
            free: Vec::new(),
            sequences: [Sequence { head: NONE, tail: NONE }; 6],
            sizes: [0; 6],
            no_bytes: Arc::new([]),
            history: Vec::new(),
        }
    }

    fn size(&self, state: State) -> u64 {
        self.sizes[state as usize]
    }

    fn oldest(&self, state: State) -> Option<usize> {
        let tail = self.sequences[state as usize].tail;
        (tail != NONE).then_some(tail)
    }

    fn link(&mut self, place: usize) {
        let sequence = &mut self.sequences[self.entries[place].state as usize];
        let older = std::mem::replace(&mut sequence.head, place);
        if older == NONE {
            sequence.tail = place;
        } else {
            self.entries[older].newer = place;
        }
        (self.entries[place].newer, self.entries[place].older) = (NONE, older);
    }

    fn unlink(&mut self, place: usize) {
        let (newer, older) = (self.entries[place].newer, self.entries[place].older);
        let sequence = &mut self.sequences[self.entries[place].state as usize];
        if newer == NONE {
            sequence.head = older;
        } else {
            self.entries[newer].older = older;
        }
        let sequence = &mut self.sequences[self.entries[place].state as usize];
        if older == NONE {
            sequence.tail = newer;
        } else {
            self.entries[older].newer = newer;
        }
    }

    /// Changes the state of an entry that stands on no sequence.
    fn turn(&mut self, place: usize, state: State) {
        let entry = &mut self.entries[place];
        self.sizes[entry.state as usize] -= entry.key.size;
        self.sizes[state as usize] += entry.key.size;
        entry.state = state;
    }

    /// Takes an entry that stands on no sequence out of the table.
    fn forget(&mut self, place: usize) {
        let entry = &mut self.entries[place];
        entry.bytes = self.no_bytes.clone();
        self.sizes[entry.state as usize] -= entry.key.size;
        self.places.remove(&entry.key);
        self.free.push(place);
    }

    fn adapt(&mut self, state: State, size: u64) {
        let (mru, mfu) = (self.size(State::MruGhost), self.size(State::MfuGhost));
        let least = self.capacity / 16;
        if state == State::MruGhost {
            let times = if mru >= mfu { 1 } else { (mfu / mru).min(10) };
            self.target = (self.capacity - least).min(self.target + size * times);
        } else {
            let times = if mfu >= mru { 1 } else { (mru / mfu).min(10) };
            self.target = least.max(self.target - (size * times).min(self.target));
        }
    }

    fn make_room(&mut self, size: u64) {
        while self.size(State::Anon) + self.size(State::Mru) + self.size(State::Mfu) + size > self.capacity {
            let recent = self.oldest(State::Mru);
            let is_over = self.size(State::Anon) + self.size(State::Mru) > self.target;
            let Some(place) = recent.filter(|_| is_over).or(self.oldest(State::Mfu)).or(recent) else {
                return;
            };
            let ghost = if self.entries[place].state == State::Mru { State::MruGhost } else { State::MfuGhost };
            self.unlink(place);
            self.turn(place, ghost);
            self.entries[place].bytes = self.no_bytes.clone();
            self.link(place);
        }
    }

    fn trim(&mut self) {
        while self.size(State::Mru) + self.size(State::MruGhost) > self.capacity {
            let Some(place) = self.oldest(State::MruGhost) else { break };
            self.drop_ghost(place);
        }
        while self.size(State::MruGhost) + self.size(State::MfuGhost) > self.capacity {
            let Some(place) = self.oldest(State::MfuGhost) else { break };
            self.drop_ghost(place);
        }
    }

    /// A ghost is remembered no more, unless for its place on the cache device.
    fn drop_ghost(&mut self, place: usize) {
        self.unlink(place);
        if self.entries[place].place == NO_PLACE {
            self.forget(place);
        } else {
            self.turn(place, State::L2Only);
        }
    }

    fn insert(&mut self, key: Key, state: State, tick: u64) -> usize {
        let bytes = self.no_bytes.clone();
        let entry = Entry { key, state, holds: 1, last: tick, digest: NO_DIGEST, bytes, place: NO_PLACE, newer: NONE, older: NONE };
        let place = match self.free.pop() {
            Some(place) => {
                self.entries[place] = entry;
                place
            }
            None => {
                self.entries.push(entry);
                self.entries.len() - 1
            }
        };
        self.places.insert(key, place);
        self.sizes[state as usize] += key.size;
        place
    }

    pub fn hit(&mut self, place: usize, tick: u64) {
        let entry = &self.entries[place];
        self.history.push(Event::Hit(entry.key, tick));
        if entry.holds == 0 {
            self.unlink(place);
        }
        let entry = &mut self.entries[place];
        entry.holds += 1;
        if entry.state == State::Mfu {
            entry.last = tick;
        } else if tick > entry.last + self.min_time {
            entry.last = tick;
            self.turn(place, State::Mfu);
        }
    }

    /// Adapts to a ghost that was missed, and takes the key out: its place on the cache device, where it has one.
    fn take_out(&mut self, key: Key) -> Option<u64> {
        let place = self.places.get(&key).copied()?;
        let Entry { state, place: on_device, .. } = self.entries[place];
        if state.is_ghost() {
            self.adapt(state, key.size);
            self.unlink(place);
        }
        self.forget(place);
        Some(on_device)
    }

    pub fn miss(&mut self, key: Key, tick: u64) -> usize {
        self.history.push(Event::Miss(key, tick));
        let known = self.take_out(key);
        self.make_room(key.size);
        let state = if known.is_some() { State::Mfu } else { State::Anon };
        let place = self.insert(key, state, tick);
        self.entries[place].place = known.unwrap_or(NO_PLACE);
        self.trim();
        place
    }

    pub fn arrive(&mut self, place: usize, digest: Digest, bytes: Arc<[u8]>) {
        self.arrive_from(place, digest, bytes, false);
    }

    /// The bytes came, from the cache device or from the pool.
    pub fn arrive_from(&mut self, place: usize, digest: Digest, bytes: Arc<[u8]>, from_device: bool) {
        self.history.push(Event::Arrive(self.entries[place].key, digest, from_device));
        if self.entries[place].state == State::Anon {
            self.turn(place, State::Mru);
        }
        (self.entries[place].digest, self.entries[place].bytes) = (digest, bytes);
    }

    pub fn fail(&mut self, place: usize) {
        self.history.push(Event::Fail(self.entries[place].key));
        self.forget(place);
    }

    pub fn release(&mut self, place: usize) {
        self.drop_hold(0, place);
    }

    /// Gives back a hold of this number.
    pub fn drop_hold(&mut self, n: u8, place: usize) {
        self.history.push(Event::Drop(n, self.entries[place].key));
        self.entries[place].holds -= 1;
        if self.entries[place].holds == 0 {
            self.link(place);
        }
    }

    // ---- dbufs

    /// The caller's hold goes to a cell.
    pub fn hand(&mut self, place: usize, cell: u8) {
        self.history.push(Event::Hand(self.entries[place].key, cell));
    }

    /// A cell makes its block private: its hold goes, and with the last one the entry.
    pub fn make_private(&mut self, cell: u8, place: usize) {
        let entry = &mut self.entries[place];
        entry.holds -= 1;
        let is_sole = entry.holds == 0;
        self.history.push(Event::Release(cell, entry.key, is_sole));
        if is_sole {
            self.forget(place);
        }
    }

    /// A block that a sync wrote comes in, held by its cell.
    pub fn put_in(&mut self, cell: u8, key: Key, digest: Digest, tick: u64, bytes: Arc<[u8]>) -> usize {
        self.history.push(Event::Insert(Box::new((cell, key, digest, tick))));
        self.take_out(key);
        self.make_room(key.size);
        let place = self.insert(key, State::Mru, tick);
        (self.entries[place].digest, self.entries[place].bytes) = (digest, bytes);
        self.trim();
        place
    }

    // ---- the feed and the capacity

    /// Picks what a feed writes: at most `most` bytes of blocks without a place, from the oldest of MFU on and then of MRU, looked for
    /// among the oldest `most * headroom` bytes of each.
    pub fn pick(&mut self, most: u64, headroom: u64) -> Vec<usize> {
        let mut picked = Vec::new();
        let (mut sum, mut is_full) = (0, false);
        for state in [State::Mfu, State::Mru] {
            let (mut place, mut met) = (self.sequences[state as usize].tail, 0);
            while place != NONE && !is_full {
                let entry = &self.entries[place];
                met += entry.key.size;
                if met > most * headroom {
                    break;
                }
                if entry.place == NO_PLACE {
                    is_full = sum + entry.key.size > most;
                    if !is_full {
                        sum += entry.key.size;
                        picked.push(place);
                    }
                }
                place = entry.newer;
            }
        }
        for place in &picked {
            self.history.push(Event::Pick(self.entries[*place].key));
        }
        self.history.push(Event::FeedEnd);
        picked
    }

    /// The key of an entry, with its bytes.
    pub fn block(&self, place: usize) -> (Key, Digest, Arc<[u8]>) {
        let entry = &self.entries[place];
        (entry.key, entry.digest, entry.bytes.clone())
    }

    /// An entry has a place on the cache device from now on.
    pub fn set(&mut self, place: usize, on_device: u64) {
        self.history.push(Event::Set(self.entries[place].key, on_device));
        self.entries[place].place = on_device;
    }

    /// A picked key gets no place, since the device failed.
    pub fn leave(&mut self, place: usize) {
        self.history.push(Event::Leave(self.entries[place].key));
    }

    /// A key loses this place on the cache device, and says whether it had it.
    pub fn clear(&mut self, key: Key, on_device: u64) -> bool {
        let Some(place) = self.places.get(&key).copied().filter(|place| self.entries[*place].place == on_device) else { return false };
        self.history.push(Event::Clear(key));
        self.entries[place].place = NO_PLACE;
        if self.entries[place].state == State::L2Only {
            self.forget(place);
        }
        true
    }

    /// A key that the cache device has, as a rebuild finds it.
    pub fn restore(&mut self, key: Key, on_device: u64, digest: Option<Digest>) {
        self.history.push(Event::Restore(Box::new((key, on_device, digest))));
        let place = self.insert(key, State::L2Only, 0);
        let entry = &mut self.entries[place];
        (entry.holds, entry.place, entry.digest) = (0, on_device, digest.unwrap_or(NO_DIGEST));
    }

    pub fn resize(&mut self, capacity: u64) {
        self.history.push(Event::Resize(capacity));
        let least = capacity / 16;
        self.capacity = capacity;
        self.target = self.target.max(least).min(capacity - least);
        self.make_room(0);
        self.trim();
    }
}
