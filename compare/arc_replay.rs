//! Checks the report of a trace with every line that there is, for any number of callers, with nothing but the standard library:
//!
//!     rustc -O arc_replay.rs && ./arc_replay POOL DEVICE TRACE [POOL_AFTER DEVICE_AFTER] <REPORT
//!
//! The report has to have its events. POOL and DEVICE are what the run found, or -; the feeds of the report are done to DEVICE once more. The other two are what
//! the run left, and are compared with what it has to leave. Each shard's events are replayed by the rules of a shard (`judged.rs`), and the
//! ends and the counts compared. The digests and the bytes that replies show are compared with the pool's and the device's (`told.rs`). In the end
//! one order is sought of all lines and all events, in which each party's and each shard's stand in theirs, groups one behind the other, and which
//! does to the dbufs what the replies tell (`order.rs`). It ends with status 0 and a line of sums, or with status 1 and what is wrong.

#[allow(dead_code)]
mod device;
mod event_words;
#[allow(dead_code)]
mod judged;
mod key;
mod order;
#[allow(dead_code)]
mod pool;
mod sha256;
mod told;
#[allow(dead_code)]
mod trace;

use device::{Device, Found};
use event_words::{event_of, key_of};
use judged::{Event, FailedAt, Origin, Shard, State, What};
use pool::Pool;
use std::fmt::Write as _;
use std::io::{self, Read};
use std::process::ExitCode;
use told::{Checked, History, Told};
use trace::{Trace, parse};

/// The histories that a report's lines of events tell, and the lines behind them.
fn histories<'a, 'b>(mut lines: &'a [&'b str], trace: &Trace) -> Checked<(Vec<Vec<Event>>, &'a [&'b str])> {
    let mut histories: Vec<Vec<Event>> = (0..trace.shards).map(|_| vec![]).collect();
    let mut last = 0;
    while let [line, rest @ ..] = lines
        && line.starts_with("e ")
    {
        let fields: Vec<&[u8]> = line.split(' ').map(str::as_bytes).collect();
        let told = if fields.len() > 4 { event_of(&fields, trace.shards as u64, (trace.callers + trace.cells) as u64) } else { None };
        let (shard, at, event) = told.ok_or_else(|| format!("{line:?} is no event here"))?;
        if shard < last || at != histories[shard].len() as u64 {
            return Err(format!("{line:?} is out of order"));
        }
        if key_of(&event).is_some_and(|key| key.shard_of(trace.shards) != shard) {
            return Err(format!("{line:?} has a key of another shard"));
        }
        last = shard;
        histories[shard].push(event);
        lines = rest;
    }
    Ok((histories, lines))
}

/// The lines behind the events, as the histories have them.
fn last_lines(histories: &[History], found: Option<&Found>, status: u8) -> String {
    let mut text = String::new();
    for (s, History { shard, .. }) in histories.iter().enumerate() {
        let _ = write!(text, "shard {s} c {} p {}", shard.capacity, shard.target);
        let states = [State::Anon, State::Mru, State::MruGhost, State::Mfu, State::MfuGhost, State::L2Only];
        for (word, state) in ["anon", "mru", "mrug", "mfu", "mfug", "l2"].iter().zip(states) {
            let _ = write!(text, " {word} {}", shard.size(state));
        }
        text.push('\n');
    }
    let events = || histories.iter().flat_map(|history| &history.events);
    let count = |is: fn(&What) -> bool| events().filter(|event| is(&event.what)).count();
    let (hits, misses) = (count(|it| matches!(it, What::Hit(..))), count(|it| matches!(it, What::Miss(..))));
    let (past, passes) = (count(|it| matches!(it, What::Past(..))), count(|it| matches!(it, What::Pass(..))));
    let reads = count(|it| matches!(it, What::Arrive(_, _, Origin::Pool) | What::Fail(_, FailedAt::Pool) | What::Past(..)));
    let (from_device, sets) = (count(|it| matches!(it, What::Arrive(_, _, Origin::L2))), count(|it| matches!(it, What::Set(..))));
    let _ = writeln!(text, "count hit {hits} miss {misses} past {past} pool {reads} l2 {from_device} pass {passes} set {sets}");
    if let Some(Found { restored, stop, .. }) = found {
        let _ = writeln!(text, "rebuilt {} {stop}", restored.len());
    }
    let _ = writeln!(text, "end {status}");
    text
}

/// The replies at the head of a report's lines, and the lines behind them.
fn replies<'a, 'b>(lines: &'a [&'b str], trace: &Trace) -> Checked<(Vec<&'b str>, &'a [&'b str])> {
    let is_reply = |line: &&&str| line.starts_with(|c: char| c.is_ascii_digit());
    let count = lines.iter().take_while(is_reply).count();
    if count > trace.ops.len() {
        return Err("there are more replies than operations".into());
    }
    let reply = |(i, line): (usize, &&'b str)| line.strip_prefix(&format!("{i} ")).ok_or_else(|| format!("{line:?} is no reply to operation {i}"));
    Ok((lines[..count].iter().enumerate().map(reply).collect::<Checked<_>>()?, &lines[count..]))
}

struct Files {
    pool: Pool,
    device: Option<Vec<u8>>,
    found: Option<Found>,
    pool_after: Option<String>,
    device_after: Option<String>,
    device_name: String,
}

/// Checks a report, and gives a line of sums.
fn check(trace: &Trace, files: Files, report: &str) -> Checked<String> {
    let text = report.strip_prefix("arc 1\n").ok_or("the first line is not \"arc 1\"")?;
    let lines: Vec<&str> = text.strip_suffix('\n').ok_or("the last line has no end")?.split('\n').collect();
    let (replies, lines) = replies(&lines, trace)?;
    let (events, lines) = histories(lines, trace)?;
    let half = files.found.as_ref().and_then(|found| found.device.as_ref()).map_or(u64::MAX, Device::half);
    let shard = || Shard::new(trace.capacity, trace.min_time, trace.write_max.min(half), trace.headroom);
    let histories = events.into_iter().enumerate().map(|(s, events)| History::replay(s, events, shard()));
    let histories: Vec<History> = histories.collect::<Checked<_>>()?;
    let is_refused = replies.iter().any(|reply| reply.starts_with("refused"));
    let status = match lines.last() {
        Some(&"end 6") => 6,
        Some(&"end 8") => 8,
        _ => u8::from(is_refused),
    };
    let (ends, wanted) = (lines.join("\n") + "\n", last_lines(&histories, files.found.as_ref(), status));
    if ends != wanted {
        return Err(format!("behind the events stands\n{ends}and has to stand\n{wanted}"));
    }
    let sums = format!(
        "callers {} shards {} replies {} events {} passes {}", trace.callers, trace.shards, replies.len(),
        histories.iter().map(|history| history.events.len()).sum::<usize>(),
        histories.iter().flat_map(|history| &history.events).filter(|event| matches!(event.what, What::Pass(..))).count()
    );
    let after = files.pool_after.as_ref().map(|name| Pool::open(name).ok_or("the pool's file is gone")).transpose()?;
    let found = files.found.zip(files.device);
    let has_device = found.is_some();
    let told = Told::new(trace, &files.pool, replies, histories, status, after.as_ref(), found)?;
    let items = order::order(&told)?;
    if let (Some(after), Some(before)) = (&after, files.pool.image()) {
        let mut image = before.map_err(|fault| format!("the pool: {fault}"))?;
        for (at, bytes) in items {
            image[at as usize..][..bytes.len()].copy_from_slice(&bytes);
        }
        // a write that failed may have left any bytes in its range
        if status != 6 && after.image().and_then(Result::ok) != Some(image) {
            return Err("the pool is not as it has to be left".into());
        }
    }
    if let (true, Some(name)) = (has_device, &files.device_after) {
        let read = |name: &str| std::fs::read(name).map_err(|fault| format!("{name}: {fault}"));
        if read(name)? != read(&files.device_name)? {
            return Err("the device is not as it has to be left".into());
        }
    }
    Ok(sums)
}

fn perform() -> Checked<String> {
    let words: Vec<String> = std::env::args().skip(1).collect();
    let (pool, device, text, after) = match &words[..] {
        [pool, device, text] => (pool, device, text, None),
        [pool, device, text, pool_after, device_after] => (pool, device, text, Some((pool_after, device_after))),
        _ => return Err("usage: arc_replay POOL DEVICE TRACE [POOL_AFTER DEVICE_AFTER] <REPORT".into()),
    };
    let text = std::fs::read(text).map_err(|fault| format!("{text}: {fault}"))?;
    let trace = parse(&text, 16).map_err(|line| format!("line {line} of the trace is at fault"))?;
    let mut report = String::new();
    io::stdin().read_to_string(&mut report).map_err(|fault| format!("the report: {fault}"))?;
    let (mut image, mut found) = (None, None);
    if device != "-" {
        image = Some(std::fs::read(device).map_err(|fault| format!("{device}: {fault}"))?);
        let (file, len) = Device::open(device).ok_or("the device can't be had")?;
        found = Some(Device::start(file, len));
    }
    let named = |name: &String| Some(name.clone()).filter(|name| name != "-");
    let files = Files {
        pool: Pool::open(pool).ok_or("the pool can't be had")?,
        device: image,
        found,
        pool_after: after.and_then(|(pool, _)| named(pool)),
        device_after: after.and_then(|(_, device)| named(device)),
        device_name: device.clone(),
    };
    check(&trace, files, &report)
}

fn main() -> ExitCode {
    match perform() {
        Ok(sums) => {
            println!("{sums}");
            ExitCode::SUCCESS
        }
        Err(fault) => {
            eprintln!("arc_replay: {fault}");
            ExitCode::FAILURE
        }
    }
}
