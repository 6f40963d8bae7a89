//! The words of an event, as a report and a log print them.

use crate::judged::{Event, FailedAt, Origin, What, Why};
use crate::key::{Key, LARGEST_BLOCK};
use crate::trace::{digest, number};

const LAST: u64 = 1 << 62;

/// The shard, the index and the event that the fields of a line tell, of so many shards and with numbers up to the last party's.
pub fn event_of(fields: &[&[u8]], shards: u64, last: u64) -> Option<(usize, u64, Event)> {
    let shard = number(fields[1], 0, shards - 1)? as usize;
    let index = number(fields[2], 0, LAST)?;
    let party = |field: &[u8]| number(field, 0, last);
    let n = party(fields[4])?;
    let what = match (fields[3], &fields[5..]) {
        (b"feedend", _) => What::FeedEnd,
        (b"resize", [c]) => What::Resize(number(c, 0, LAST)?),
        (name, [offset, size, birth, rest @ ..]) => {
            let key = key(offset, size, birth)?;
            match (name, rest) {
                (b"pass", [owner]) => What::Pass(key, party(owner)?),
                (b"hit", [tick]) => What::Hit(key, number(tick, 0, LAST)?),
                (b"miss", [tick]) => What::Miss(key, number(tick, 0, LAST)?),
                (b"arrive", [bytes, from]) => What::Arrive(key, digest(bytes)?, origin(from)?),
                (b"fail", [at]) => What::Fail(key, failed(at)?),
                (b"drop", []) => What::Drop(key),
                (b"past", [kept]) => What::Past(key, digest(kept)?),
                (b"hand", [to]) => What::Hand(key, party(to)?),
                (b"insert", [bytes, tick]) => What::Insert(key, digest(bytes)?, number(tick, 0, LAST)?),
                (b"release", [sole]) => What::Release(key, is_sole(sole)?),
                (b"pick", []) => What::Pick(key),
                (b"set", [place]) => What::Set(key, number(place, 0, LAST)?),
                (b"leave", [why]) => What::Leave(key, why_of(why)?),
                (b"clear", []) => What::Clear(key),
                (b"restore", [place, b"-"]) => What::Restore(key, number(place, 0, LAST)?, None),
                (b"restore", [place, bytes]) => What::Restore(key, number(place, 0, LAST)?, Some(digest(bytes)?)),
                _ => return None,
            }
        }
        _ => return None,
    };
    Some((shard, index, Event { n, what }))
}

fn key(offset: &[u8], size: &[u8], birth: &[u8]) -> Option<Key> {
    let key = Key { offset: number(offset, 0, 1 << 63)?, size: number(size, 512, LARGEST_BLOCK)?, birth: number(birth, 1, u64::MAX)? };
    (key.offset % 512 == 0 && key.size % 512 == 0 && key.offset + key.size <= 1 << 63).then_some(key)
}

fn origin(field: &[u8]) -> Option<Origin> {
    match field {
        b"pool" => Some(Origin::Pool),
        b"l2" => Some(Origin::L2),
        _ => None,
    }
}

fn failed(field: &[u8]) -> Option<FailedAt> {
    match field {
        b"pool" => Some(FailedAt::Pool),
        b"unread" => Some(FailedAt::Unread),
        _ => None,
    }
}

fn is_sole(field: &[u8]) -> Option<bool> {
    match field {
        b"sole" => Some(true),
        b"shared" => Some(false),
        _ => None,
    }
}

fn why_of(field: &[u8]) -> Option<Why> {
    match field {
        b"gone" => Some(Why::Gone),
        b"device" => Some(Why::Device),
        b"memory" => Some(Why::Memory),
        _ => None,
    }
}

/// The key that an event is about.
pub fn key_of(event: &Event) -> Option<Key> {
    match event.what {
        What::FeedEnd | What::Resize(_) => None,
        What::Pass(key, _) | What::Hit(key, _) | What::Miss(key, _) | What::Arrive(key, ..) | What::Fail(key, _) => Some(key),
        What::Drop(key) | What::Past(key, _) | What::Hand(key, _) | What::Insert(key, ..) | What::Release(key, _) => Some(key),
        What::Pick(key) | What::Set(key, _) | What::Leave(key, _) | What::Clear(key) | What::Restore(key, ..) => Some(key),
    }
}
