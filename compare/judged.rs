//! One shard of the cache with every event that there is: where each may come, and what it changes. Written from the table of events alone.

use crate::key::Key;
use crate::sha256::Digest;
use std::collections::{BTreeMap, HashMap, HashSet};

#[derive(Clone, Copy)]
pub struct Event {
    pub n: u64,
    pub what: What,
}

#[derive(Clone, Copy, PartialEq, Eq, Hash)]
pub enum What {
    Pass(Key, u64),
    Hit(Key, u64),
    Miss(Key, u64),
    Arrive(Key, Digest, Origin),
    Fail(Key, FailedAt),
    Drop(Key),
    Past(Key, Digest),
    Hand(Key, u64),
    Insert(Key, Digest, u64),
    Release(Key, bool),
    Pick(Key),
    FeedEnd,
    Set(Key, u64),
    Leave(Key, Why),
    Clear(Key),
    Restore(Key, u64, Option<Digest>),
    Resize(u64),
}

#[derive(Clone, Copy, PartialEq, Eq, Hash)]
pub enum Origin {
    Pool,
    L2,
}

#[derive(Clone, Copy, PartialEq, Eq, Hash)]
pub enum FailedAt {
    Pool,
    Unread,
}

#[derive(Clone, Copy, PartialEq, Eq, Hash)]
pub enum Why {
    Gone,
    Device,
    Memory,
}

#[derive(Clone, Copy, PartialEq, Eq)]
pub enum State {
    Anon,
    Mru,
    MruGhost,
    Mfu,
    MfuGhost,
    L2Only,
}

#[derive(Clone, Copy, PartialEq)]
enum Phase {
    Idle,
    Picking,
    Writing,
}

struct Entry {
    state: State,
    is_read: bool,
    last: u64,
    place: Option<u64>,
    digest: Option<Digest>,
    holds: HashMap<u64, u64>,
    /// where it stands on its state's sequence: the higher, the newer
    stands: Option<u64>,
}

impl Entry {
    fn is_resident(&self) -> bool {
        matches!(self.state, State::Mru | State::Mfu) && !self.is_read
    }

    fn has_sequence(&self) -> bool {
        !matches!(self.state, State::Anon | State::L2Only)
    }

    fn is_held_by(&self, n: u64) -> bool {
        self.holds.contains_key(&n)
    }

    fn lose_hold(&mut self, n: u64) {
        if let Some(count) = self.holds.get_mut(&n) {
            *count -= 1;
        }
        self.holds.retain(|_, count| *count > 0);
    }
}

pub struct Shard {
    pub capacity: u64,
    pub target: u64,
    min_time: u64,
    write_max: u64,
    headroom: u64,
    entries: HashMap<Key, Entry>,
    sequences: [BTreeMap<u64, Key>; 6],
    sizes: [u64; 6],
    passed: HashSet<Key>,
    phase: Phase,
    picked: Vec<(Key, Option<Digest>)>,
    newest: u64,
}

impl Shard {
    pub fn new(capacity: u64, min_time: u64, write_max: u64, headroom: u64) -> Shard {
        Shard {
            capacity,
            target: capacity / 2,
            min_time,
            write_max,
            headroom,
            entries: HashMap::new(),
            sequences: Default::default(),
            sizes: [0; 6],
            passed: HashSet::new(),
            phase: Phase::Idle,
            picked: vec![],
            newest: 0,
        }
    }

    pub fn size(&self, state: State) -> u64 {
        self.sizes[state as usize]
    }

    /// The least number that holds a key.
    pub fn holder(&self, key: Key) -> Option<u64> {
        self.entries.get(&key)?.holds.keys().copied().min()
    }

    /// The digest of the bytes that are kept under a key.
    pub fn kept(&self, key: Key) -> Option<Digest> {
        self.entries.get(&key).filter(|entry| entry.is_resident()).and_then(|entry| entry.digest)
    }

    /// The key's place on the cache device, and the digest that is known of it.
    pub fn place(&self, key: Key) -> (Option<u64>, Option<Digest>) {
        self.entries.get(&key).map_or((None, None), |entry| (entry.place, entry.digest))
    }

    /// Whether nothing is held, read or fed.
    pub fn is_at_rest(&self) -> bool {
        self.phase == Phase::Idle && self.entries.values().all(|entry| entry.holds.is_empty() && !entry.is_read)
    }

    // ---- the sequences and the table

    /// Puts an entry that nobody holds at the head of its state's sequence, where that has one.
    fn stand(&mut self, key: Key) {
        let Some(entry) = self.entries.get_mut(&key) else { return };
        if entry.has_sequence() && entry.holds.is_empty() && entry.stands.is_none() {
            self.newest += 1;
            entry.stands = Some(self.newest);
            self.sequences[entry.state as usize].insert(self.newest, key);
        }
    }

    fn unstand(&mut self, key: Key) {
        let Some(entry) = self.entries.get_mut(&key) else { return };
        if let Some(place) = entry.stands.take() {
            self.sequences[entry.state as usize].remove(&place);
        }
    }

    /// Changes the state of an entry that stands on no sequence.
    fn turn(&mut self, key: Key, state: State) {
        let Some(entry) = self.entries.get_mut(&key) else { return };
        self.sizes[entry.state as usize] -= key.size;
        self.sizes[state as usize] += key.size;
        entry.state = state;
    }

    fn take_out(&mut self, key: Key) -> Option<Entry> {
        self.unstand(key);
        let entry = self.entries.remove(&key)?;
        self.sizes[entry.state as usize] -= key.size;
        Some(entry)
    }

    /// Puts an entry in, and makes the room that it wants.
    fn take_in(&mut self, key: Key, entry: Entry) {
        self.make_room(key.size);
        self.sizes[entry.state as usize] += key.size;
        self.entries.insert(key, entry);
        self.trim();
    }

    /// The oldest key of a sequence that no scan has passed.
    fn oldest(&self, state: State) -> Option<Key> {
        self.sequences[state as usize].values().copied().find(|key| !self.passed.contains(key))
    }

    // ---- the rules

    fn adapt(&mut self, ghost: State, size: u64) {
        let (mru, mfu, least) = (self.size(State::MruGhost), self.size(State::MfuGhost), self.capacity / 16);
        if ghost == State::MruGhost {
            let times = if mru >= mfu { 1 } else { 10.min(mfu / mru) };
            self.target = (self.target + size * times).min(self.capacity - least);
        } else if ghost == State::MfuGhost {
            let times = if mfu >= mru { 1 } else { 10.min(mru / mfu) };
            self.target = self.target.saturating_sub(size * times).max(least);
        }
    }

    fn make_room(&mut self, size: u64) {
        while self.size(State::Anon) + self.size(State::Mru) + self.size(State::Mfu) + size > self.capacity {
            let recent = self.oldest(State::Mru).map(|key| (key, State::MruGhost));
            let frequent = self.oldest(State::Mfu).map(|key| (key, State::MfuGhost));
            let is_over = self.size(State::Anon) + self.size(State::Mru) > self.target;
            let victim = if is_over { recent.or(frequent) } else { frequent.or(recent) };
            let Some((key, ghost)) = victim else { return };
            self.unstand(key);
            self.turn(key, ghost);
            self.stand(key);
        }
    }

    fn drop_ghost(&mut self, key: Key) {
        if self.entries.get(&key).is_some_and(|entry| entry.place.is_some()) {
            self.unstand(key);
            self.turn(key, State::L2Only);
        } else {
            self.take_out(key);
        }
    }

    fn trim(&mut self) {
        while self.size(State::Mru) + self.size(State::MruGhost) > self.capacity {
            let Some(key) = self.oldest(State::MruGhost) else { break };
            self.drop_ghost(key);
        }
        while self.size(State::MruGhost) + self.size(State::MfuGhost) > self.capacity {
            let Some(key) = self.oldest(State::MfuGhost) else { break };
            self.drop_ghost(key);
        }
    }

    // ---- the feed

    fn pick_of(&self, key: Key) -> Option<Option<Digest>> {
        self.picked.iter().find(|(picked, _)| *picked == key).map(|(_, digest)| *digest)
    }

    fn walk(&self, state: State) -> Option<Key> {
        let mut met = 0;
        for key in self.sequences[state as usize].values().copied() {
            met += key.size;
            if met > self.write_max * self.headroom {
                return None;
            }
            let has_place = self.entries.get(&key).is_some_and(|entry| entry.place.is_some());
            if !has_place && self.pick_of(key).is_none() && !self.passed.contains(&key) {
                return Some(key);
            }
        }
        None
    }

    /// The key that a feed may pick next.
    pub fn candidate(&self) -> Option<Key> {
        let chosen = self.walk(State::Mfu).or_else(|| self.walk(State::Mru))?;
        let bytes: u64 = self.picked.iter().map(|(key, _)| key.size).sum();
        (bytes + chosen.size <= self.write_max).then_some(chosen)
    }

    /// The key that was picked first, of those that have to get a place yet.
    pub fn first_picked(&self) -> Option<Key> {
        self.picked.first().map(|(key, _)| *key)
    }

    fn may_set(&self, key: Key) -> bool {
        let (Some(digest), Some(entry)) = (self.pick_of(key), self.entries.get(&key)) else { return false };
        entry.has_sequence() && !entry.is_read && entry.digest == digest && entry.place.is_none()
    }

    fn settle(&mut self, key: Key) {
        self.picked.retain(|(picked, _)| *picked != key);
        if self.picked.is_empty() {
            self.phase = Phase::Idle;
        }
    }

    // ---- the events

    /// Whether an event may come here.
    pub fn is_legal(&self, event: &Event) -> bool {
        let n = event.n;
        let entry = |key: Key| self.entries.get(&key);
        let reads = |key: Key| entry(key).filter(|entry| entry.is_read && entry.is_held_by(n));
        let holds = |key: Key| entry(key).filter(|entry| !entry.is_read && entry.is_held_by(n));
        match event.what {
            What::Pass(key, owner) => {
                entry(key).is_some_and(|entry| entry.stands.is_some()) && !self.passed.contains(&key) && owner != n && owner <= 16
            }
            What::Hit(key, _) => entry(key).is_some_and(Entry::is_resident),
            What::Miss(key, _) => {
                entry(key).is_none_or(|entry| matches!(entry.state, State::MruGhost | State::MfuGhost | State::L2Only))
            }
            What::Arrive(key, _, from) => reads(key).is_some_and(|entry| from == Origin::Pool || entry.place.is_some()),
            What::Fail(key, _) => reads(key).is_some(),
            What::Drop(key) => holds(key).is_some(),
            What::Past(key, kept) => entry(key).is_some_and(|entry| entry.is_resident() && entry.digest == Some(kept)),
            What::Hand(key, to) => (2..=32).contains(&to) && holds(key).is_some(),
            What::Insert(key, ..) => (2..=32).contains(&n) && entry(key).is_none_or(|entry| entry.state == State::L2Only),
            What::Release(key, sole) => holds(key).is_some_and(|entry| sole == (entry.holds.values().sum::<u64>() == 1)),
            What::Pick(key) => self.phase != Phase::Writing && self.candidate() == Some(key),
            What::FeedEnd => self.phase != Phase::Writing && self.candidate().is_none(),
            What::Set(key, _) => self.phase == Phase::Writing && self.may_set(key),
            What::Leave(key, why) => {
                self.phase == Phase::Writing && self.pick_of(key).is_some() && (why == Why::Gone) != self.may_set(key)
            }
            What::Clear(key) => entry(key).is_some_and(|entry| entry.place.is_some()),
            What::Restore(key, ..) => entry(key).is_none(),
            What::Resize(c) => (4096..=1 << 32).contains(&c),
        }
    }

    /// Makes an event that may come here.
    pub fn step(&mut self, event: &Event) {
        self.make(event.n, event.what);
        if !matches!(event.what, What::Pass(..) | What::Pick(_)) {
            self.passed.clear();
        }
    }

    fn make(&mut self, n: u64, what: What) {
        match what {
            What::Pass(key, _) => {
                self.passed.insert(key);
            }
            What::Hit(key, tick) => self.hit(n, key, tick),
            What::Miss(key, tick) => self.miss(n, key, tick),
            What::Arrive(key, digest, _) => self.arrive(key, digest),
            What::Fail(key, _) | What::Release(key, true) => {
                self.take_out(key);
            }
            What::Drop(key) => self.lose(n, key),
            What::Past(..) => {}
            What::Hand(key, to) => {
                if let Some(entry) = self.entries.get_mut(&key) {
                    entry.lose_hold(n);
                    *entry.holds.entry(to).or_default() += 1;
                }
            }
            What::Insert(key, digest, tick) => self.insert(n, key, digest, tick),
            What::Release(key, false) => {
                if let Some(entry) = self.entries.get_mut(&key) {
                    entry.lose_hold(n);
                }
            }
            What::Pick(key) => {
                self.picked.push((key, self.entries.get(&key).and_then(|entry| entry.digest)));
                self.phase = Phase::Picking;
            }
            What::FeedEnd => self.phase = if self.picked.is_empty() { Phase::Idle } else { Phase::Writing },
            What::Set(key, place) => {
                if let Some(entry) = self.entries.get_mut(&key) {
                    entry.place = Some(place);
                }
                self.settle(key);
            }
            What::Leave(key, _) => self.settle(key),
            What::Clear(key) => self.clear(key),
            What::Restore(key, place, digest) => self.restore(key, place, digest),
            What::Resize(c) => {
                self.capacity = c;
                self.target = self.target.max(c / 16).min(c - c / 16);
                self.make_room(0);
                self.trim();
            }
        }
    }

    fn hit(&mut self, n: u64, key: Key, tick: u64) {
        self.unstand(key);
        let Some(entry) = self.entries.get_mut(&key) else { return };
        *entry.holds.entry(n).or_default() += 1;
        if entry.state == State::Mfu || tick > entry.last + self.min_time {
            entry.last = tick;
            self.turn(key, State::Mfu);
        }
    }

    fn miss(&mut self, n: u64, key: Key, tick: u64) {
        if let Some(state) = self.entries.get(&key).map(|entry| entry.state) {
            self.adapt(state, key.size);
        }
        let old = self.take_out(key);
        let state = if old.is_some() { State::Mfu } else { State::Anon };
        let place = old.and_then(|entry| entry.place);
        self.take_in(
            key,
            Entry { state, is_read: true, last: tick, place, digest: None, holds: HashMap::from([(n, 1)]), stands: None },
        );
    }

    fn arrive(&mut self, key: Key, digest: Digest) {
        let Some(entry) = self.entries.get_mut(&key) else { return };
        (entry.is_read, entry.digest) = (false, Some(digest));
        if entry.state == State::Anon {
            self.turn(key, State::Mru);
        }
    }

    fn lose(&mut self, n: u64, key: Key) {
        if let Some(entry) = self.entries.get_mut(&key) {
            entry.lose_hold(n);
        }
        self.stand(key);
    }

    fn insert(&mut self, n: u64, key: Key, digest: Digest, tick: u64) {
        self.take_out(key);
        let holds = HashMap::from([(n, 1)]);
        self.take_in(
            key,
            Entry { state: State::Mru, is_read: false, last: tick, place: None, digest: Some(digest), holds, stands: None },
        );
    }

    fn clear(&mut self, key: Key) {
        if self.entries.get(&key).is_some_and(|entry| entry.state == State::L2Only) {
            self.take_out(key);
        } else if let Some(entry) = self.entries.get_mut(&key) {
            entry.place = None;
        }
    }

    fn restore(&mut self, key: Key, place: u64, digest: Option<Digest>) {
        self.sizes[State::L2Only as usize] += key.size;
        let (state, holds) = (State::L2Only, HashMap::new());
        self.entries.insert(key, Entry { state, is_read: false, last: 0, place: Some(place), digest, holds, stands: None });
    }
}
