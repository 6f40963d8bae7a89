//! An order of all that a report tells: of each shard's events, of each party's lines, and of what was done to the dbufs, of which no event tells.
//!
//! What a party does next is told by its own events and by the replies. Only where several parties may take one cell next there is a choice, and each is
//! tried. So a report is right where some order leads to its end.

use crate::judged::What;
use crate::key::Key;
use crate::sha256::{Digest, sha256};
use crate::told::{Bytes, Checked, Group, Told, groups, read_words, settles, shown};
use crate::trace::{self, Oid, Pointer};
use std::collections::{BTreeMap, HashSet, VecDeque};

// ---- The dbufs --------------------------------------------------------------------------------------------------------------

#[derive(Clone, PartialEq, Eq, Hash)]
enum Kept {
    Nothing,
    /// it is being read by this caller
    Reading(usize),
    /// with a hold on the entry, or past the cache
    Block { held: bool },
}

#[derive(Clone, PartialEq, Eq, Hash)]
enum Content {
    Clean(Key, Digest, Kept),
    Dirty(Bytes),
}

#[derive(Clone, PartialEq, Eq, Hash)]
struct Cell {
    taken: bool,
    contents: BTreeMap<Oid, Content>,
    pins: BTreeMap<(Oid, usize), u64>,
    /// from the one that was used longest ago on
    used: Vec<Oid>,
}

impl Cell {
    fn use_last(&mut self, oid: Oid) {
        self.used.retain(|it| *it != oid);
        self.used.push(oid);
    }

    /// The dbuf that is due to go: of those that may, and are more than the limit together, the one used longest ago.
    fn due(&self, limit: u64) -> Option<Oid> {
        let size = |oid: &Oid| match self.contents.get(oid) {
            Some(Content::Clean(key, _, Kept::Block { .. })) if !self.pins.keys().any(|(it, _)| it == oid) => Some(key.size),
            _ => None,
        };
        let sum: u64 = self.used.iter().filter_map(size).sum();
        if sum > limit { self.used.iter().copied().find(|oid| size(oid).is_some()) } else { None }
    }
}

// ---- The parties ------------------------------------------------------------------------------------------------------------

/// What a party has to do next in its line.
#[derive(Clone, PartialEq, Eq, Hash)]
enum Todo {
    /// make this event with this number in this shard
    Make(usize, u64, What),
    /// make the block of a cell's dbuf private
    Release(usize, u64, Key),
    /// take this place from a key, where it has it
    Drop(Key, u64),
    /// give this place to a key that was picked
    Settle(Key, u64),
    /// go back to the cell with what was read, or with the words of a refusal
    Return(usize, Result<bool, String>),
    Give(usize),
    EndFeed(usize, u64, u64),
}

#[derive(Clone, PartialEq, Eq, Hash, Default)]
struct Party {
    /// how many of its lines of the group were begun
    begun: usize,
    todo: VecDeque<Todo>,
    /// the places that the feed in hand gave and took
    written: u64,
    cleared: u64,
}

#[derive(Clone, PartialEq, Eq, Hash)]
struct Now {
    group: usize,
    made: Vec<usize>,
    parties: Vec<Party>,
    cells: Vec<Cell>,
    /// what each caller keeps: the block, and the key of the entry that is held
    kept: Vec<Vec<(usize, Option<Key>)>>,
    next: u64,
    /// what was written to the pool
    items: Vec<(u64, Bytes)>,
    is_over: bool,
}

/// What trying a step came to.
enum Step {
    Done,
    Waits,
}

pub struct Search<'a> {
    told: &'a Told<'a>,
    groups: Vec<Group>,
    /// which feed a line is
    feeds: BTreeMap<usize, usize>,
    /// how far the best order came, and what stopped it
    furthest: (usize, String),
}

/// Finds an order, and gives what was written to the pool in it.
pub fn order(told: &Told<'_>) -> Checked<Vec<(u64, Bytes)>> {
    let fed = told.replies.iter().enumerate().filter(|(_, reply)| reply.starts_with("feed picked "));
    let mut search = Search {
        told,
        groups: groups(told.trace, told.replies.len()),
        feeds: fed.enumerate().map(|(k, (i, _))| (i, k)).collect(),
        furthest: (0, "nothing was begun".into()),
    };
    search.look()
}

impl Search<'_> {
    fn look(&mut self) -> Checked<Vec<(u64, Bytes)>> {
        let mut stack = vec![self.opening()?];
        let mut seen = HashSet::new();
        while let Some(mut now) = stack.pop() {
            let went = self.go_on(&mut now);
            let made: usize = now.made.iter().sum::<usize>() + now.parties.iter().map(|party| party.begun).sum::<usize>() + now.group;
            if let Err(fault) = went {
                if made >= self.furthest.0 {
                    self.furthest = (made, fault);
                }
                continue;
            }
            if now.is_over {
                return Ok(now.items);
            }
            if made > self.furthest.0 {
                self.furthest = (made, format!("no party can go on: {}", self.places(&now)));
            }
            if !seen.insert(now.clone()) {
                continue;
            }
            for n in 0..now.parties.len() {
                let mut next = now.clone();
                match self.turn_to_cell(&mut next, n) {
                    Ok(Step::Done) => stack.push(next),
                    Ok(Step::Waits) => {}
                    Err(fault) if made >= self.furthest.0 => self.furthest = (made, fault),
                    Err(_) => {}
                }
            }
        }
        Err(std::mem::take(&mut self.furthest.1))
    }

    fn places(&self, now: &Now) -> String {
        let lines = |(n, party): (usize, &Party)| {
            let line = party.begun.checked_sub(1).and_then(|begun| self.groups[now.group].lines[n].get(begun));
            line.filter(|_| !party.todo.is_empty()).map(|line| format!("operation {line} is not at its end"))
        };
        let stuck: Vec<String> = now.parties.iter().enumerate().filter_map(lines).collect();
        format!("{}; of the shards' events {:?} were made", stuck.join(", "), now.made)
    }

    fn opening(&self) -> Checked<Now> {
        let trace = self.told.trace;
        let cell = Cell { taken: false, contents: BTreeMap::new(), pins: BTreeMap::new(), used: vec![] };
        let mut cells = vec![cell; trace.cells];
        for (oid, block) in &trace.objects {
            let pointer = trace.blocks[*block];
            cells[cell_of(*oid, trace.cells)].contents.insert(*oid, Content::Clean(pointer.key, pointer.digest, Kept::Nothing));
        }
        let ends = trace.blocks.iter().filter(|it| self.told.pool.check(it.key).is_ok()).map(|it| it.key.offset + it.key.size);
        Ok(Now {
            group: 0,
            made: self.restores()?,
            parties: vec![Party::default(); trace.callers + 1],
            cells,
            kept: vec![vec![]; trace.callers],
            next: ends.max().unwrap_or(0),
            items: vec![],
            is_over: false,
        })
    }

    /// How many events of each shard are the restores at its start.
    fn restores(&self) -> Checked<Vec<usize>> {
        let mut made = vec![0; self.told.histories.len()];
        for live in &self.told.restored {
            let s = self.shard_of(live.key);
            let what = What::Restore(live.key, live.place, live.digest);
            if !self.told.histories[s].events.get(made[s]).is_some_and(|event| event.n == self.told.feeder() && event.what == what) {
                return Err(format!("event {} of shard {s} is not the restore that has to stand there", made[s]));
            }
            made[s] += 1;
        }
        Ok(made)
    }

    fn shard_of(&self, key: Key) -> usize {
        key.shard_of(self.told.trace.shards)
    }

    fn cell_number(&self, c: usize) -> u64 {
        self.told.feeder() + 1 + c as u64
    }

    fn reply(&self, i: usize, wanted: &str) -> Checked<()> {
        let reply = self.told.replies[i];
        if reply == wanted { Ok(()) } else { Err(format!("operation {i} is answered {reply:?}, and has to be {wanted:?}")) }
    }

    // ---- what is no choice

    /// Does all that no other party can come before.
    fn go_on(&self, now: &mut Now) -> Checked<()> {
        loop {
            let mut moves = false;
            for n in 0..now.parties.len() {
                while let Step::Done = self.step(now, n)? {
                    moves = true;
                }
            }
            let are_idle = now.parties.iter().enumerate().all(|(n, it)| it.todo.is_empty() && it.begun == self.groups[now.group].lines[n].len());
            if are_idle && !now.is_over {
                self.end_group(now)?;
                moves = true;
            }
            if !moves || now.is_over {
                return Ok(());
            }
        }
    }

    fn step(&self, now: &mut Now, n: usize) -> Checked<Step> {
        let Some(todo) = now.parties[n].todo.front().cloned() else { return self.begin_plain(now, n) };
        let done = match &todo {
            Todo::Make(s, number, what) => self.make(now, *s, *number, |it| it == *what, what)?,
            Todo::Release(s, number, key) => self.make(now, *s, *number, |it| matches!(it, What::Release(k, _) if k == *key), &todo)?,
            Todo::Drop(key, place) => self.drop_place(now, n, *key, *place)?,
            Todo::Settle(key, place) => {
                let s = self.shard_of(*key);
                let at = now.made[s];
                let done = self.make(now, s, self.told.feeder(), |it| settles(it, *key, *place), &todo)?;
                if let Step::Done = done {
                    let set = self.told.histories[s].events[at..now.made[s]].iter().any(|it| matches!(it.what, What::Set(..)));
                    now.parties[n].written += u64::from(set);
                }
                done
            }
            Todo::Give(c) => {
                now.cells[*c].taken = false;
                Step::Done
            }
            Todo::EndFeed(i, picked, bytes) => {
                let Party { written, cleared, .. } = now.parties[n];
                self.reply(*i, &format!("feed picked {picked} bytes {bytes} written {written} cleared {cleared} ok"))?;
                Step::Done
            }
            Todo::Return(..) => Step::Waits,
        };
        if let Step::Done = done {
            now.parties[n].todo.pop_front();
        }
        Ok(done)
    }

    /// Makes the next event of a number in a shard, which has to be so, where all before it are made.
    fn make(&self, now: &mut Now, s: usize, number: u64, is: impl Fn(What) -> bool, what: &impl Words) -> Checked<Step> {
        let history = &self.told.histories[s];
        let Some(at) = history.own_from(number, now.made[s]) else { return Err(format!("shard {s} has no more event of {number}, and {} is wanted", what.words())) };
        if !is(history.events[at].what) {
            return Err(format!("event {at} of shard {s} is not the next one of {number}, which is {}", what.words()));
        }
        if self.told.trace.callers == 1 && history.start_of(at) != at {
            return Err(format!("event {at} of shard {s} stands behind a pass, and there is one caller"));
        }
        if history.start_of(at) != now.made[s] {
            return Ok(Step::Waits);
        }
        now.made[s] = at + 1;
        Ok(Step::Done)
    }

    /// The same where nobody else is at work: nothing may stand before it.
    fn make_alone(&self, now: &mut Now, s: usize, number: u64, what: What) -> Checked<()> {
        let events = &self.told.histories[s].events;
        if !events.get(now.made[s]).is_some_and(|event| event.n == number && event.what == what) {
            return Err(format!("event {} of shard {s} has to be {} by {number}", now.made[s], what.words()));
        }
        now.made[s] += 1;
        Ok(())
    }

    fn drop_place(&self, now: &mut Now, n: usize, key: Key, place: u64) -> Checked<Step> {
        let s = self.shard_of(key);
        let history = &self.told.histories[s];
        if history.place_then(key, now.made[s]) != Some(place) {
            return Ok(Step::Done);
        }
        let next = history.own_from(self.told.feeder(), now.made[s]);
        if next.is_none_or(|at| history.events[at].what != What::Clear(key)) {
            return Ok(Step::Waits);
        }
        let done = self.make(now, s, self.told.feeder(), |it| it == What::Clear(key), &What::Clear(key))?;
        if let Step::Done = done {
            now.parties[n].cleared += 1;
        }
        Ok(done)
    }

    // ---- lines that take no cell

    fn line(&self, now: &Now, n: usize) -> Option<usize> {
        self.groups[now.group].lines[n].get(now.parties[n].begun).copied()
    }

    /// Begins the next line, where it is one that takes no cell.
    fn begin_plain(&self, now: &mut Now, n: usize) -> Checked<Step> {
        let Some(i) = self.line(now, n) else { return Ok(Step::Waits) };
        let todo = match self.told.trace.ops[i].what {
            trace::What::Read { block, tick, at, len } => self.read(now, n, i, block, tick, Some((at, at + len))),
            trace::What::Hold { block, tick } => self.read(now, n, i, block, tick, None),
            trace::What::Drop { block } => self.drop_read(now, n, i, block),
            trace::What::Feed => self.feed(i),
            _ => return Ok(Step::Waits),
        };
        let todo = todo.map_err(|fault| if fault.starts_with("operation") { fault } else { format!("operation {i} {fault}") })?;
        let party = &mut now.parties[n];
        (party.begun, party.written, party.cleared) = (party.begun + 1, 0, 0);
        party.todo.extend(todo);
        Ok(Step::Done)
    }

    fn made_by(&self, pointer: &Pointer, n: usize, events: Vec<What>) -> Vec<Todo> {
        events.into_iter().map(|what| Todo::Make(self.shard_of(pointer.key), n as u64, what)).collect()
    }

    fn read(&self, now: &mut Now, n: usize, i: usize, block: usize, tick: u64, window: Option<(u64, u64)>) -> Checked<Vec<Todo>> {
        let pointer = self.told.trace.blocks[block];
        if let Some((_, end)) = window.filter(|(_, end)| *end > pointer.key.size) {
            self.reply(i, &format!("refused window {end} {}", pointer.key.size))?;
            return Ok(vec![]);
        }
        let (mut events, got) = self.told.access(n as u64, &pointer, tick, now.made[self.shard_of(pointer.key)])?;
        match got {
            Err(refusal) => self.reply(i, &refusal)?,
            Ok(served) => {
                self.reply(i, &read_words(self.told, &pointer, served, window)?)?;
                let held = (served != "past").then_some(pointer.key);
                match (window, held) {
                    (None, _) => now.kept[n].push((block, held)),
                    (Some(_), Some(key)) => events.push(What::Drop(key)),
                    (Some(_), None) => {}
                }
            }
        }
        Ok(self.made_by(&pointer, n, events))
    }

    fn drop_read(&self, now: &mut Now, n: usize, i: usize, block: usize) -> Checked<Vec<Todo>> {
        let Some(oldest) = now.kept[n].iter().position(|(it, _)| *it == block) else {
            self.reply(i, &format!("refused hold {block}"))?;
            return Ok(vec![]);
        };
        self.reply(i, "dropped")?;
        let (_, held) = now.kept[n].remove(oldest);
        Ok(held.map(|key| Todo::Make(self.shard_of(key), n as u64, What::Drop(key))).into_iter().collect())
    }

    fn feed(&self, i: usize) -> Checked<Vec<Todo>> {
        let Some(feed) = self.feeds.get(&i).map(|k| &self.told.feeds[*k]) else {
            if self.told.is_fed {
                return Err(format!("is answered {:?}, and there is a device", self.told.replies[i]));
            }
            self.reply(i, "feed none")?;
            return Ok(vec![]);
        };
        let (mut todo, mut picked, mut bytes) = (vec![], 0, 0);
        for (s, history) in self.told.histories.iter().enumerate() {
            let whats = feed.picks[s].iter().chain([&feed.ends[s]]).map(|at| history.events[*at].what);
            todo.extend(whats.map(|what| Todo::Make(s, self.told.feeder(), what)));
            todo.extend(feed.dropped[s].iter().map(|(key, place)| Todo::Drop(*key, *place)));
            for (at, place) in feed.picks[s].iter().zip(&feed.places[s]) {
                if let What::Pick(key) = history.events[*at].what {
                    todo.push(Todo::Settle(key, *place));
                    (picked, bytes) = (picked + 1, bytes + key.size);
                }
            }
        }
        todo.push(Todo::EndFeed(i, picked, bytes));
        Ok(todo)
    }

    // ---- lines that take a cell

    /// Takes the cell that this party's next step is in, where it may.
    fn turn_to_cell(&self, now: &mut Now, n: usize) -> Checked<Step> {
        if let Some(Todo::Return(i, brought)) = now.parties[n].todo.front().cloned() {
            return self.come_back(now, n, i, brought);
        }
        let Some(i) = self.line(now, n).filter(|_| now.parties[n].todo.is_empty()) else { return Ok(Step::Waits) };
        let Some(oid) = self.told.trace.ops[i].dbuf() else { return Ok(Step::Waits) };
        let cell = &now.cells[cell_of(oid, now.cells.len())];
        if cell.taken || matches!(cell.contents.get(&oid), Some(Content::Clean(.., Kept::Reading(_)))) {
            return Ok(Step::Waits);
        }
        now.parties[n].begun += 1;
        let begun = self.begin_dbuf(now, n, i, oid);
        begun.map_err(|fault| if fault.starts_with("operation") { fault } else { format!("operation {i} {fault}") })?;
        Ok(Step::Done)
    }

    fn begin_dbuf(&self, now: &mut Now, n: usize, i: usize, oid: Oid) -> Checked<()> {
        let c = cell_of(oid, now.cells.len());
        let op = &self.told.trace.ops[i];
        let (end, tick) = match op.what {
            trace::What::Put { .. } | trace::What::Unpin { .. } => return self.operate(now, n, i, c, oid, vec![]),
            trace::What::Get { at, len, tick, .. } => (at + len, tick),
            trace::What::Patch { at, tick, ref bytes, .. } => (at + bytes.len() as u64, tick),
            trace::What::Pin { tick, .. } => (0, tick),
            _ => return Ok(()),
        };
        let Some(content) = now.cells[c].contents.get_mut(&oid) else { return self.reply(i, &format!("refused block {} {}", oid.0, oid.1)) };
        let size = match content {
            Content::Clean(key, ..) => key.size,
            Content::Dirty(bytes) => bytes.len() as u64,
        };
        if end > size {
            return self.reply(i, &format!("refused window {end} {size}"));
        }
        let Content::Clean(key, digest, kept @ Kept::Nothing) = content else { return self.operate(now, n, i, c, oid, vec![]) };
        let pointer = Pointer { key: *key, digest: *digest };
        let (events, got) = self.told.access(n as u64, &pointer, tick, now.made[self.shard_of(pointer.key)])?;
        if let (Err(refusal), true) = (&got, events.is_empty()) {
            return self.reply(i, refusal);
        }
        *kept = Kept::Reading(n);
        let todo = self.made_by(&pointer, n, events);
        now.parties[n].todo.extend(todo);
        now.parties[n].todo.push_back(Todo::Return(i, got.map(|served| served != "past")));
        Ok(())
    }

    /// The block was read, or the read was refused: the dbuf has it, or is as it was.
    fn come_back(&self, now: &mut Now, n: usize, i: usize, brought: Result<bool, String>) -> Checked<Step> {
        let Some(oid) = self.told.trace.ops[i].dbuf() else { return Ok(Step::Waits) };
        let c = cell_of(oid, now.cells.len());
        if now.cells[c].taken {
            return Ok(Step::Waits);
        }
        now.parties[n].todo.pop_front();
        let Some(Content::Clean(key, _, kept)) = now.cells[c].contents.get_mut(&oid) else { return Ok(Step::Waits) };
        let held = match brought {
            Err(refusal) => {
                *kept = Kept::Nothing;
                self.reply(i, &refusal)?;
                return Ok(Step::Done);
            }
            Ok(held) => held,
        };
        *kept = Kept::Block { held };
        let hand = Todo::Make(self.shard_of(*key), n as u64, What::Hand(*key, self.cell_number(c)));
        now.cells[c].use_last(oid);
        self.operate(now, n, i, c, oid, if held { vec![hand] } else { vec![] })?;
        Ok(Step::Done)
    }

    /// Does the operation on a dbuf that is there, and evicts those that are due then.
    fn operate(&self, now: &mut Now, n: usize, i: usize, c: usize, oid: Oid, mut todo: Vec<Todo>) -> Checked<()> {
        let cell = &mut now.cells[c];
        match &self.told.trace.ops[i].what {
            trace::What::Get { at, len, .. } => {
                let bytes = self.bytes_of(cell, oid)?;
                self.reply(i, &format!("got {} {}", bytes.len(), shown(&bytes[*at as usize..][..*len as usize])))?;
            }
            trace::What::Put { size, fill, .. } => {
                self.reply(i, "done")?;
                todo.extend(self.make_private(cell, c, oid));
                cell.contents.insert(oid, Content::Dirty(vec![*fill; *size as usize].into()));
            }
            trace::What::Patch { at, bytes, .. } => {
                self.reply(i, "done")?;
                let mut block = self.bytes_of(cell, oid)?.to_vec();
                block[*at as usize..][..bytes.len()].copy_from_slice(bytes);
                todo.extend(self.make_private(cell, c, oid));
                cell.contents.insert(oid, Content::Dirty(block.into()));
            }
            trace::What::Pin { .. } => {
                self.reply(i, "done")?;
                *cell.pins.entry((oid, n)).or_default() += 1;
            }
            trace::What::Unpin { .. } => {
                let Some(pins) = cell.pins.get_mut(&(oid, n)) else { return self.reply(i, &format!("refused pin {} {}", oid.0, oid.1)) };
                self.reply(i, "done")?;
                *pins -= 1;
                cell.pins.retain(|_, pins| *pins > 0);
            }
            _ => {}
        }
        cell.use_last(oid);
        while let Some(due) = cell.due(self.told.trace.dbuf_bytes) {
            if let Some(Content::Clean(key, _, kept)) = cell.contents.get_mut(&due) {
                if (*kept == Kept::Block { held: true }) {
                    todo.push(Todo::Make(self.shard_of(*key), self.cell_number(c), What::Drop(*key)));
                }
                *kept = Kept::Nothing;
            }
        }
        if !todo.is_empty() {
            cell.taken = true;
            todo.push(Todo::Give(c));
            now.parties[n].todo.extend(todo);
        }
        Ok(())
    }

    fn bytes_of(&self, cell: &Cell, oid: Oid) -> Checked<Bytes> {
        match cell.contents.get(&oid) {
            Some(Content::Dirty(bytes)) => Ok(bytes.clone()),
            Some(Content::Clean(_, digest, _)) => self.told.bytes(digest),
            None => Err("has no block".into()),
        }
    }

    fn make_private(&self, cell: &Cell, c: usize, oid: Oid) -> Option<Todo> {
        match cell.contents.get(&oid) {
            Some(Content::Clean(key, _, Kept::Block { held: true })) => Some(Todo::Release(self.shard_of(*key), self.cell_number(c), *key)),
            _ => None,
        }
    }

    // ---- what is done between groups and at the end

    fn end_group(&self, now: &mut Now) -> Checked<()> {
        let group = &self.groups[now.group];
        match group.end {
            Some(i) => {
                match self.told.trace.ops[i].what {
                    trace::What::Txg { tick } => {
                        let (blocks, bytes) = self.sync(now, tick, true)?;
                        self.reply(i, &format!("txg {} blocks {blocks} bytes {bytes}", now.group + 1))?;
                    }
                    trace::What::Cap { capacity } => {
                        self.reply(i, &format!("cap {capacity}"))?;
                        for s in 0..now.made.len() {
                            self.make_alone(now, s, self.told.feeder(), What::Resize(capacity))?;
                        }
                    }
                    _ => {}
                }
                now.group += 1;
                now.parties = vec![Party::default(); now.parties.len()];
                Ok(())
            }
            None => {
                self.stop(now)?;
                self.end(now)
            }
        }
    }

    /// Where not all lines were answered, the run stopped for a cause.
    fn stop(&self, now: &mut Now) -> Checked<()> {
        let answered = self.told.replies.len();
        let Some(op) = self.told.trace.ops.get(answered) else {
            return if self.told.status > 1 { Err(format!("all lines are answered, and the status is {}", self.told.status)) } else { Ok(()) };
        };
        let is_first = self.groups[now.group].lines.iter().all(Vec::is_empty);
        match (self.told.status, &op.what) {
            (8, trace::What::Txg { .. }) => {
                let (need, left) = self.need(now);
                if need > left { Ok(()) } else { Err(format!("the pool is said to be full at operation {answered}, and has room")) }
            }
            (6, trace::What::Txg { tick }) => self.sync(now, *tick, false).map(|_| ()),
            (6, _) if is_first && self.told.trace.callers > 1 => Ok(()),
            (status, _) => Err(format!("the replies stop before operation {answered} with status {status}")),
        }
    }

    fn dirty(&self, now: &Now) -> Vec<(Oid, usize, Bytes)> {
        let of_cell = |(c, cell): (usize, &Cell)| -> Vec<_> {
            let dirty = cell.contents.iter().filter_map(|(oid, content)| if let Content::Dirty(bytes) = content { Some((*oid, c, bytes.clone())) } else { None });
            dirty.collect()
        };
        let mut dirty: Vec<_> = now.cells.iter().enumerate().flat_map(of_cell).collect();
        dirty.sort_by_key(|(oid, ..)| *oid);
        dirty
    }

    fn need(&self, now: &Now) -> (u64, u64) {
        (self.dirty(now).iter().map(|(.., bytes)| bytes.len() as u64).sum(), self.told.pool.len() - now.next)
    }

    /// Writes all dirty blocks; or a front of them, as far as the histories have it.
    fn sync(&self, now: &mut Now, tick: u64, whole: bool) -> Checked<(usize, u64)> {
        let (need, left) = self.need(now);
        if need > left {
            return Err("a sync is done, and the pool has no room for it".into());
        }
        let dirty = self.dirty(now);
        let count = dirty.len();
        for (oid, c, bytes) in dirty {
            let key = Key { offset: now.next, size: bytes.len() as u64, birth: now.group as u64 + 1 };
            let digest = sha256(&bytes);
            match self.make_alone(now, self.shard_of(key), self.cell_number(c), What::Insert(key, digest, tick)) {
                Err(_) if !whole => return Ok((0, 0)),
                made => made?,
            }
            self.told.learn(digest, bytes.clone());
            now.next += key.size;
            now.items.push((key.offset, bytes));
            now.cells[c].contents.insert(oid, Content::Clean(key, digest, Kept::Block { held: true }));
        }
        if whole || count == 0 { Ok((count, need)) } else { Err("a sync failed, and all its blocks were inserted".into()) }
    }

    /// What is kept is given back: the callers' reads, and then the cells' blocks.
    fn end(&self, now: &mut Now) -> Checked<()> {
        for n in 0..now.kept.len() {
            for (_, held) in std::mem::take(&mut now.kept[n]) {
                if let Some(key) = held {
                    self.make_alone(now, self.shard_of(key), n as u64, What::Drop(key))?;
                }
            }
        }
        for c in 0..now.cells.len() {
            let is_held = |content: &Content| if let Content::Clean(key, _, Kept::Block { held: true }) = content { Some(*key) } else { None };
            for key in now.cells[c].contents.values().filter_map(is_held).collect::<Vec<_>>() {
                self.make_alone(now, self.shard_of(key), self.cell_number(c), What::Drop(key))?;
            }
        }
        for (s, history) in self.told.histories.iter().enumerate() {
            if now.made[s] < history.events.len() {
                return Err(format!("event {} of shard {s} is of no line", now.made[s]));
            }
        }
        now.is_over = true;
        Ok(())
    }
}

fn cell_of((object, block): Oid, cells: usize) -> usize {
    let cells = cells as u64;
    ((object % cells + block % cells) % cells) as usize
}

/// Words for what is wanted.
trait Words {
    fn words(&self) -> String;
}

impl Words for What {
    fn words(&self) -> String {
        match self {
            What::Hit(key, tick) => format!("hit {key} {tick}"),
            What::Miss(key, tick) => format!("miss {key} {tick}"),
            What::Arrive(key, ..) => format!("arrive {key}"),
            What::Fail(key, _) => format!("fail {key}"),
            What::Drop(key) => format!("drop {key}"),
            What::Past(key, _) => format!("past {key}"),
            What::Hand(key, to) => format!("hand {key} {to}"),
            What::Insert(key, ..) => format!("insert {key}"),
            What::Pick(key) => format!("pick {key}"),
            What::FeedEnd => "feedend".into(),
            What::Clear(key) => format!("clear {key}"),
            What::Resize(c) => format!("resize {c}"),
            _ => "another event".into(),
        }
    }
}

impl Words for Todo {
    fn words(&self) -> String {
        match self {
            Todo::Release(_, _, key) => format!("release {key}"),
            Todo::Settle(key, place) => format!("set {key} {place}, or leave"),
            _ => "another event".into(),
        }
    }
}
