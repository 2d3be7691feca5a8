//! Finds a short script that still shows a difference: fewer and fewer of the calls before the one that differs.

use crate::compare::pair::{Pair, SHORT};
use crate::compare::side::{Frame, Said};
use crate::entry::Call;
use crate::options::Options;
use crate::script::generate::Generator;
use std::collections::VecDeque;
use std::time::{Duration, Instant};

/// So many calls before the differing one are looked at, of so many bytes, and so long.
const MOST: usize = 20_000;
const BYTES: usize = 1 << 24;
const TIME: Duration = Duration::from_secs(60);

/// The calls that were kept, the differing one last, and what the two sides say to that, where they differ again.
pub struct Shortest {
    pub calls: Vec<Call>,
    pub said: Option<(Said, Said)>,
}

/// First with the calls that keep a state, which are none where the entry has no state; then, since a fault may lie in
/// how a program reads its script, with all calls.
pub fn shortest(options: &Options, pair: &Pair, call: u64) -> Result<Shortest, String> {
    let until = Instant::now() + TIME;
    let mut calls = Vec::new();
    for only_states in [true, false] {
        calls = before(options, call, only_states);
        let last = calls.len() - 1;
        let mut size = 0;
        loop {
            if differ(pair, &calls[last - size..])?.is_some() {
                let calls = fewer(pair, calls.split_off(last - size), until)?;
                let said = differ(pair, &calls)?;
                return Ok(Shortest { calls, said });
            }
            if size == last {
                break;
            }
            size = (2 * size).clamp(1, last);
        }
    }
    Ok(Shortest { calls, said: None })
}

/// The call that a side does not answer, where answers fail to come from this one on: a program that ends badly may
/// take answers with it that it had not yet written.
pub fn unanswered(options: &Options, pair: &Pair, from: u64) -> Result<u64, String> {
    let all_answered = |calls: u64| -> Result<bool, String> {
        let (mut rust, mut ours) = pair.start_on(options, calls, SHORT)?;
        let good = (0..calls).all(|_| matches!((rust.frame(), ours.frame()), (Frame::Answer(_), Frame::Answer(_))));
        rust.stop();
        ours.stop();
        Ok(good)
    };
    // The first `good` calls are all answered, the first `bad` are not.
    let (mut good, mut bad) = (from - 1, from);
    while bad < options.calls && all_answered(bad)? {
        (good, bad) = (bad, (2 * bad).min(options.calls));
    }
    while bad - good > 1 {
        let middle = good + (bad - good) / 2;
        if all_answered(middle)? { good = middle } else { bad = middle }
    }
    Ok(bad)
}

/// The calls of the script up to this one, as many of the last as are looked at.
fn before(options: &Options, call: u64, only_states: bool) -> Vec<Call> {
    let mut script = Generator::of(options);
    let mut kept: VecDeque<Call> = VecDeque::new();
    let mut size = 0;
    for number in 1..=call {
        let (entry, bytes) = script.next();
        if number == call && only_states && !entry.state {
            kept.clear();
            size = 0;
        }
        if number == call || !only_states || entry.state {
            kept.push_back((entry, bytes.to_vec()));
            size += bytes.len();
        }
        while kept.len() > MOST || kept.len() > 1 && size > BYTES {
            size -= kept.pop_front().map_or(0, |(_, bytes)| bytes.len());
        }
    }
    kept.into()
}

/// Drops calls before the last, half of them at once, then smaller parts, while the last one's answers still differ.
fn fewer(pair: &Pair, mut calls: Vec<Call>, until: Instant) -> Result<Vec<Call>, String> {
    let mut part = calls.len() / 2;
    while part > 0 {
        let (length, mut at) = (calls.len(), 0);
        while at + 1 < calls.len() && Instant::now() < until {
            let mut without = calls.clone();
            without.drain(at..(at + part).min(calls.len() - 1));
            match differ(pair, &without)? {
                Some(_) => calls = without,
                None => at += part,
            }
        }
        // Single calls are tried again until none can go.
        if part > 1 || calls.len() == length {
            part /= 2;
        }
    }
    Ok(calls)
}

/// What the two sides say to the last call, where that differs.
fn differ(pair: &Pair, calls: &[Call]) -> Result<Option<(Said, Said)>, String> {
    let script = calls.iter().map(|(_, bytes)| bytes.as_slice()).collect::<Vec<_>>().concat();
    let (mut rust, mut ours) = pair.start(&script)?;
    let mut found = None;
    for (place, (entry, _)) in calls.iter().enumerate() {
        let (one, other) = (rust.frame(), ours.frame());
        let same = one == Frame::Answer(entry.number) && one == other && rust.bytes == ours.bytes;
        if !same && place + 1 == calls.len() {
            found = Some((rust.said(one), ours.said(other)));
        }
    }
    rust.stop();
    ours.stop();
    Ok(found)
}
