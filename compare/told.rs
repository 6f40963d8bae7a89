//! What a report tells of a run, and what is known of the pool and of the cache device that it ran over: nothing here goes by an order of events of
//! different shards.

use crate::device::{Block, Device, Found, Live, RUN};
use crate::event_words::key_of;
use crate::judged::{Event, FailedAt, Origin, Shard, What, Why};
use crate::key::Key;
use crate::pool::Pool;
use crate::sha256::{Digest, Hex, sha256};
use crate::trace::{self, Pointer, Trace};
use std::cell::RefCell;
use std::collections::HashMap;
use std::sync::Arc;

pub type Checked<T> = Result<T, String>;

pub type Bytes = Arc<[u8]>;

/// What an event found under its key: the digest of the bytes that are kept, a place on the device, and the digest that is known.
#[derive(Clone, Copy, Default)]
pub struct Under {
    pub kept: Option<Digest>,
    pub place: Option<u64>,
    pub known: Option<Digest>,
}

/// One shard's history, with what each event found.
pub struct History {
    pub events: Vec<Event>,
    pub under: Vec<Under>,
    /// where the passes begin that stand in front of an event
    starts: Vec<usize>,
    /// each number's events but passes, by their indexes
    own: HashMap<u64, Vec<usize>>,
    /// each key's place on the device behind the events that are about it
    places: HashMap<Key, Vec<(usize, Option<u64>)>>,
    pub shard: Shard,
}

impl History {
    /// Replays the events by the rules of a shard.
    pub fn replay(s: usize, events: Vec<Event>, mut shard: Shard) -> Checked<History> {
        let (mut under, mut starts, mut start) = (vec![], vec![], 0);
        let (mut own, mut places): (HashMap<u64, Vec<usize>>, HashMap<Key, Vec<_>>) = Default::default();
        for (at, event) in events.iter().enumerate() {
            let key = key_of(event);
            let found = key.map_or(Under::default(), |key| {
                let (place, known) = shard.place(key);
                Under { kept: shard.kept(key), place, known }
            });
            if !shard.is_legal(event) {
                return Err(format!("event {at} of shard {s} may not come there"));
            }
            shard.step(event);
            if let Some(key) = key {
                places.entry(key).or_default().push((at + 1, shard.place(key).0));
            }
            under.push(found);
            starts.push(start);
            if let What::Pass(..) = event.what {
                if !events.get(at + 1).is_some_and(|next| goes_on(event.n, next)) {
                    return Err(format!("event {at} of shard {s} is a pass, and what it was made for doesn't follow"));
                }
            } else {
                start = at + 1;
                own.entry(event.n).or_default().push(at);
            }
        }
        if !shard.is_at_rest() {
            return Err(format!("shard {s} is not at rest in the end"));
        }
        Ok(History { events, under, starts, own, places, shard })
    }

    /// The first event of a number, but a pass, from an index on.
    pub fn own_from(&self, n: u64, at: usize) -> Option<usize> {
        let own = self.own.get(&n)?;
        own.get(own.partition_point(|index| *index < at)).copied()
    }

    pub fn own(&self, n: u64) -> &[usize] {
        self.own.get(&n).map_or(&[], Vec::as_slice)
    }

    /// Where the passes begin that stand in front of an event.
    pub fn start_of(&self, at: usize) -> usize {
        self.starts[at]
    }

    /// A key's place on the device, once so many events were made.
    pub fn place_then(&self, key: Key, made: usize) -> Option<u64> {
        let places = self.places.get(&key)?;
        places[..places.partition_point(|(at, _)| *at <= made)].last()?.1
    }
}

/// Whether a scan of this number, behind a pass, goes on with this event.
fn goes_on(n: u64, next: &Event) -> bool {
    match next.what {
        What::Pass(..) | What::Miss(..) | What::Pick(_) | What::FeedEnd | What::Resize(_) => next.n == n,
        What::Insert(..) => true,
        _ => false,
    }
}

/// What an access came to: where the bytes are from, or the words of a refusal.
pub type Got = Result<&'static str, String>;

/// One feed of the device, as the histories have it.
pub struct Feed {
    /// each shard's picks, by the indexes of their events and that of the end
    pub picks: Vec<Vec<usize>>,
    pub ends: Vec<usize>,
    /// what falls as room is made for a shard's picks, and where these are written
    pub dropped: Vec<Vec<(Key, u64)>>,
    pub places: Vec<Vec<u64>>,
}

/// What the feeds and the start say of the device's bytes.
struct OnDevice {
    image: Vec<u8>,
    /// what was written: a place, how many bytes, and the digest of a block
    writes: Vec<(u64, u64, Option<Digest>)>,
}

pub struct Told<'a> {
    pub trace: &'a Trace,
    pub pool: &'a Pool,
    pub replies: Vec<&'a str>,
    pub histories: Vec<History>,
    pub status: u8,
    contents: RefCell<HashMap<Digest, Bytes>>,
    plain: RefCell<HashMap<(Key, Digest), Result<(), String>>>,
    /// the digest of each block that a sync wrote
    written: HashMap<Key, Digest>,
    device: Option<OnDevice>,
    /// what a start found
    pub restored: Vec<Live>,
    /// whether there is a device to feed
    pub is_fed: bool,
    pub feeds: Vec<Feed>,
}

impl Told<'_> {
    pub fn new<'a>(
        trace: &'a Trace, pool: &'a Pool, replies: Vec<&'a str>, histories: Vec<History>, status: u8, after: Option<&Pool>,
        found: Option<(Found, Vec<u8>)>,
    ) -> Checked<Told<'a>> {
        let mut told = Told {
            trace, pool, replies, histories, status,
            contents: Default::default(),
            plain: Default::default(),
            written: HashMap::new(),
            device: None,
            restored: vec![],
            is_fed: false,
            feeds: vec![],
        };
        for event in told.histories.iter().flat_map(|history| &history.events) {
            if let What::Insert(key, digest, _) = event.what {
                told.written.insert(key, digest);
                if let Some(bytes) = after.and_then(|pool| pool.read(key).ok()).filter(|bytes| sha256(bytes) == digest) {
                    told.learn(digest, bytes.into());
                }
            }
        }
        for pointer in &trace.blocks {
            let _ = told.plain(pointer);
        }
        let fed = told.replies.iter().filter(|reply| reply.starts_with("feed picked ")).count();
        if let Some((found, image)) = found {
            for live in &found.restored {
                if let Some(bytes) = image.get(live.place as usize..(live.place + live.key.size) as usize) {
                    told.learn(sha256(bytes), bytes.into());
                }
            }
            told.device = Some(OnDevice { image, writes: vec![] });
            told.restored = found.restored;
            told.is_fed = found.device.is_some();
            if let Some(mut device) = found.device {
                told.plan(&mut device, fed)?;
            }
        }
        if told.feeds.len() != fed {
            return Err(format!("{fed} feeds are answered, and the histories have {}", told.feeds.len()));
        }
        Ok(told)
    }

    pub fn feeder(&self) -> u64 {
        self.trace.callers as u64
    }

    pub fn learn(&self, digest: Digest, bytes: Bytes) {
        self.contents.borrow_mut().insert(digest, bytes);
    }

    /// The bytes of a digest, where any are known.
    pub fn bytes(&self, digest: &Digest) -> Checked<Bytes> {
        self.contents.borrow().get(digest).cloned().ok_or_else(|| format!("nothing is known that has the digest {}", Hex(digest)))
    }

    // ---- reads

    /// What a plain read of the pool gives: the block, or the words of a refusal.
    pub fn plain(&self, pointer: &Pointer) -> Result<(), String> {
        if self.written.get(&pointer.key) == Some(&pointer.digest) {
            return Ok(());
        }
        let known = (pointer.key, pointer.digest);
        if let Some(plain) = self.plain.borrow().get(&known) {
            return plain.clone();
        }
        let plain = self.read_plain(pointer);
        self.plain.borrow_mut().insert(known, plain.clone());
        plain
    }

    fn read_plain(&self, pointer: &Pointer) -> Result<(), String> {
        self.pool.check(pointer.key).map_err(|fault| format!("refused key {fault}"))?;
        let bytes = self.pool.read(pointer.key).map_err(|_| "refused pool".to_string())?;
        let found = sha256(&bytes);
        self.learn(found, bytes.into());
        if found == pointer.digest { Ok(()) } else { Err(format!("refused digest {}", Hex(&found))) }
    }

    /// Whether a read of the device at this place gives the pointer's bytes; None where that goes by the order of feeds.
    fn device_has(&self, pointer: &Pointer, under: Under) -> Option<bool> {
        let (Some(device), Some(place)) = (&self.device, under.place) else { return Some(false) };
        let (size, len) = (pointer.key.size, device.image.len() as u64);
        if place.checked_add(size).is_none_or(|end| end > len) || under.known.is_some_and(|digest| digest != pointer.digest) {
            return Some(false);
        }
        let mut over = device.writes.iter().filter(|(at, n, _)| *at < place + size && place < at + n);
        match (over.next(), over.next()) {
            (None, _) => Some(sha256(&device.image[place as usize..(place + size) as usize]) == pointer.digest),
            (Some((at, n, Some(digest))), None) if (*at, *n) == (place, size) => Some(*digest == pointer.digest),
            _ => None,
        }
    }

    /// What an access of this number came to, whose events are the number's next ones from here on in the shard of the key, and these events.
    pub fn access(&self, n: u64, pointer: &Pointer, tick: u64, made: usize) -> Checked<(Vec<What>, Got)> {
        let key = pointer.key;
        if self.plain(pointer).is_err_and(|refusal| refusal.starts_with("refused key")) {
            return Ok((vec![], self.plain(pointer).map(|()| "pool")));
        }
        let history = &self.histories[key.shard_of(self.trace.shards)];
        let first = history.own_from(n, made).ok_or("lacks its events")?;
        let event = history.events[first];
        match event.what {
            What::Hit(k, t) if (k, t) == (key, tick) => {
                let is_own = history.under[first].kept == Some(pointer.digest);
                if is_own { Ok((vec![event.what], Ok("hit"))) } else { Err("hits bytes of another digest".into()) }
            }
            What::Past(k, kept) if k == key => {
                if kept == pointer.digest {
                    return Err("goes past the bytes that it asks for".into());
                }
                Ok((vec![event.what], self.plain(pointer).map(|()| "past")))
            }
            What::Miss(k, t) if (k, t) == (key, tick) => self.miss(n, pointer, history, first),
            _ => Err(format!("has event {first} of its shard next, which is another's")),
        }
    }

    fn miss(&self, n: u64, pointer: &Pointer, history: &History, first: usize) -> Checked<(Vec<What>, Got)> {
        let second = history.own_from(n, first + 1).ok_or("lacks the end of its miss")?;
        let (miss, end) = (history.events[first].what, history.events[second].what);
        let has = self.device_has(pointer, history.under[first]);
        let is_cleared = history.under[second].place.is_none();
        let has_to = has == Some(true) && !is_cleared;
        let got = match end {
            What::Arrive(k, digest, Origin::L2) if (k, digest) == (pointer.key, pointer.digest) => {
                if has == Some(false) {
                    return Err("has bytes from the device that this doesn't have".into());
                }
                self.bytes(&digest)?;
                Ok("l2")
            }
            What::Arrive(k, digest, Origin::Pool) if (k, digest) == (pointer.key, pointer.digest) => {
                if has_to {
                    return Err("reads the pool for a block that the device has".into());
                }
                self.plain(pointer).map_err(|refusal| format!("has bytes from the pool, and a plain read is {refusal}"))?;
                Ok("pool")
            }
            What::Fail(k, FailedAt::Pool) if k == pointer.key => match self.plain(pointer) {
                Ok(()) => return Err("fails at the pool, and a plain read doesn't".into()),
                Err(_) if has_to => return Err("fails for a block that the device has".into()),
                Err(refusal) => Err(refusal),
            },
            _ => return Err(format!("doesn't end its miss by event {second} of its shard")),
        };
        Ok((vec![miss, end], got))
    }

    // ---- feeds

    /// Finds the feeds in the histories, and does their writes on the device.
    fn plan(&mut self, device: &mut Device, feeds: usize) -> Checked<()> {
        let n = self.feeder();
        let mut at = vec![0; self.histories.len()];
        for _ in 0..feeds {
            let mut feed = Feed { picks: vec![], ends: vec![], dropped: vec![], places: vec![] };
            for (s, at) in at.iter_mut().enumerate() {
                let (picks, end) = segment(&self.histories[s], n, at).ok_or_else(|| format!("shard {s} lacks a feed"))?;
                let blocks = self.blocks_of(s, &picks)?;
                let (dropped, places) = self.write(device, &blocks)?;
                feed.picks.push(picks);
                feed.ends.push(end);
                feed.dropped.push(dropped);
                feed.places.push(places);
            }
            self.feeds.push(feed);
        }
        Ok(())
    }

    fn blocks_of(&self, s: usize, picks: &[usize]) -> Checked<Vec<Block>> {
        let history = &self.histories[s];
        let block = |at: &usize| {
            let (Some(key), Some(digest)) = (key_of(&history.events[*at]), history.under[*at].kept) else { return Err("a pick of no bytes".to_string()) };
            Ok((key, digest, self.bytes(&digest)?))
        };
        picks.iter().map(block).collect()
    }

    fn write(&mut self, device: &mut Device, blocks: &[Block]) -> Checked<(Vec<(Key, u64)>, Vec<u64>)> {
        if blocks.is_empty() {
            return Ok((vec![], vec![]));
        }
        let fault = |fault: std::io::Error| format!("the device: {fault}");
        let (dropped, began) = device.begin(blocks);
        began.map_err(fault)?;
        let mut places = vec![];
        for run in blocks.chunks(RUN) {
            places.extend(device.write_run(run).map_err(fault)?);
        }
        let writes = &mut self.device.as_mut().ok_or("there is no device")?.writes;
        writes.push((0, 512, None));
        writes.extend(blocks.iter().zip(&places).map(|((key, digest, _), place)| (*place, key.size, Some(*digest))));
        // a log block stands behind each run of blocks
        let lasts = blocks.chunks(RUN).zip(places.chunks(RUN)).filter_map(|(blocks, places)| Some((blocks.last()?, places.last()?)));
        writes.extend(lasts.map(|((key, ..), place)| (place + key.size, 65_536, None)));
        Ok((dropped.iter().map(|live| (live.key, live.place)).collect(), places))
    }
}

/// The picks and the end of the next feed in a shard's history, from the place on where the last one stopped.
fn segment(history: &History, n: u64, at: &mut usize) -> Option<(Vec<usize>, usize)> {
    let own = history.own(n);
    let is_of_picks = |index: usize| matches!(history.events[index].what, What::Pick(_) | What::FeedEnd);
    while !is_of_picks(*own.get(*at)?) {
        *at += 1;
    }
    let mut picks: Vec<usize> = vec![];
    loop {
        let index = *own.get(*at)?;
        *at += 1;
        // all picks and the end are made under one turn
        if picks.last().is_some_and(|last| history.start_of(index) != last + 1) {
            return None;
        }
        match history.events[index].what {
            What::FeedEnd => return Some((picks, index)),
            What::Pick(_) => picks.push(index),
            _ => return None,
        }
    }
}

/// What settles a pick: the place that it was written to, or that the key is gone.
pub fn settles(what: What, key: Key, place: u64) -> bool {
    what == What::Set(key, place) || what == What::Leave(key, Why::Gone)
}

/// The words that a read is answered with.
pub fn read_words(told: &Told<'_>, pointer: &Pointer, served: &str, window: Option<(u64, u64)>) -> Checked<String> {
    Ok(match window {
        None => format!("held {served}"),
        Some((at, end)) => format!("ok {served} {} {}", Hex(&pointer.digest), shown(&told.bytes(&pointer.digest)?[at as usize..end as usize])),
    })
}

pub fn shown(bytes: &[u8]) -> String {
    if bytes.is_empty() { "-".into() } else { Hex(bytes).to_string() }
}

/// The groups of lines that were answered: each party's lines, by rising caller and then the feeder's, and the line that ends the group. The last
/// line of all may be one that was not answered.
pub struct Group {
    pub lines: Vec<Vec<usize>>,
    pub end: Option<usize>,
}

pub fn groups(trace: &Trace, answered: usize) -> Vec<Group> {
    let empty = || Group { lines: vec![vec![]; trace.callers + 1], end: None };
    let mut groups = vec![empty()];
    for (i, op) in trace.ops.iter().enumerate().take(answered) {
        let last = groups.len() - 1;
        match op.what {
            trace::What::Txg { .. } | trace::What::Cap { .. } => {
                groups[last].end = Some(i);
                groups.push(empty());
            }
            trace::What::Feed if trace.callers > 1 => groups[last].lines[trace.callers].push(i),
            _ => groups[last].lines[op.caller].push(i),
        }
    }
    groups
}
