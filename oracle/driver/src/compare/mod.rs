//! Compares the Rust with our program: one long script that is made while it is fed, and short ones with an odd end.

pub mod pair;
pub mod report;
pub mod shrink;
pub mod side;

use crate::compare::pair::{LONG, Pair};
use crate::compare::side::{Frame, Said, Side};
use crate::options::Options;
use crate::script::ends::odd_ends;
use crate::script::generate::Generator;
use crate::table;

#[derive(Default)]
struct Tally {
    compared: u64,
    differ: u64,
}

pub fn compare(options: &Options) -> Result<bool, String> {
    let own = std::env::current_exe().map_err(|e| e.to_string())?;
    let rust = vec![own.to_string_lossy().into_owned(), "answer".to_string()];
    let pair = Pair { rust, ours: options.program.clone() };
    let long = long(options, &pair)?;
    let short = short(options, &pair)?;
    println!("{} of the calls below are short scripts with an odd end, {} differ", short.compared, short.differ);
    println!("{} calls compared, {} differ", long.compared + short.compared, long.differ + short.differ);
    Ok(long.differ + short.differ == 0)
}

/// The script of the seed, made once more beside the answers.
fn long(options: &Options, pair: &Pair) -> Result<Tally, String> {
    let (mut rust, mut ours) = pair.start_on(options, options.calls, LONG)?;
    let mut script = Generator::of(options);
    let mut tally = Tally::default();
    let mut by_entry = [0u64; 256];
    let mut first = None;
    let mut going = true;
    while going && tally.compared < options.calls {
        let number = script.next().0.number;
        tally.compared += 1;
        let (expected, found) = (rust.frame(), ours.frame());
        if expected != Frame::Answer(number) || expected != found || rust.bytes != ours.bytes {
            tally.differ += 1;
            first.get_or_insert_with(|| (tally.compared, rust.said(expected), ours.said(found)));
            going = matches!((expected, found), (Frame::Answer(_), Frame::Answer(_)));
            by_entry[number as usize] += going as u64;
        }
    }
    tally.differ += closed(options.calls, going, rust, ours);
    for entry in table::all().filter(|entry| by_entry[entry.number as usize] > 0) {
        println!("{:02x} {}: {} differ", entry.number, entry.name, by_entry[entry.number as usize]);
    }
    if let Some((call, rust, ours)) = first {
        tell(options, pair, call, rust, ours)?;
    }
    Ok(tally)
}

/// Counts, and names, the sides that do not close and end as they must after all calls.
fn closed(calls: u64, going: bool, rust: Side, ours: Side) -> u64 {
    let expected = format!("script ended after {calls} calls\n");
    let mut bad = 0;
    for (name, mut side) in [("the Rust", rust), ("our program", ours)] {
        if !going {
            side.stop();
            continue;
        }
        let frame = side.frame();
        let said = side.said(frame);
        let ended = side.end();
        if said != (Frame::Closing, expected.clone().into_bytes()) || ended != Ok(0) {
            println!("{name} does not close with `{}` and status 0:", expected.trim());
            println!("  {}; {ended:?}", report::said(&said));
            bad += 1;
        }
    }
    bad
}

/// Names the first difference, with the shortest script that still shows it.
fn tell(options: &Options, pair: &Pair, call: u64, rust: Said, ours: Said) -> Result<(), String> {
    let answered = matches!((rust.0, ours.0), (Frame::Answer(_), Frame::Answer(_)));
    let call = if answered { call } else { shrink::unanswered(options, pair, call)? };
    let found = shrink::shortest(options, pair, call)?;
    let (entry, bytes) = found.calls.last().expect("the call itself is kept");
    println!("first difference: call {call} of seed {}, entry {:02x} {}", options.seed, entry.number, entry.name);
    println!("  arguments: {}", report::arguments(entry, &bytes[1..]));
    let file = format!("{}/difference.script", options.folder);
    let script = found.calls.iter().map(|(_, bytes)| bytes.as_slice()).collect::<Vec<_>>().concat();
    std::fs::write(&file, &script).map_err(|e| format!("{file}: {e}"))?;
    match &found.said {
        Some((rust, ours)) => {
            report::answers(&found.calls, rust, ours);
            println!("  shortest script that shows it, {} bytes in {file}:", script.len());
        }
        None => {
            report::answers(&[], &rust, &ours);
            println!("  it did not show again; the calls up to it, {} bytes in {file}:", script.len());
        }
    }
    report::script(&found.calls);
    Ok(())
}

/// Scripts with an odd end. All that both programs write must be the same, and close as docs/ORACLE.md says.
fn short(options: &Options, pair: &Pair) -> Result<Tally, String> {
    let mut tally = Tally::default();
    for (script, closing) in odd_ends(options.seed, &options.entries) {
        let (mut rust, mut ours) = pair.start(&script)?;
        let mut same = true;
        let (expected, found) = loop {
            let (expected, found) = (rust.frame(), ours.frame());
            same &= expected == found && rust.bytes == ours.bytes;
            if !matches!((expected, found), (Frame::Answer(_), Frame::Answer(_))) {
                break (rust.said(expected), ours.said(found));
            }
        };
        let ended = [rust.end(), ours.end()];
        same &= expected == (Frame::Closing, closing.into_bytes()) && ended.iter().all(Result::is_ok);
        tally.compared += 1;
        tally.differ += !same as u64;
        if !same && tally.differ == 1 {
            let file = format!("{}/short.script", options.folder);
            std::fs::write(&file, &script).map_err(|e| format!("{file}: {e}"))?;
            println!("first short script that differs ({file}): {}", report::hex(&script));
            let (rust, ours) = (report::said(&expected), report::said(&found));
            println!("  the Rust at last:    {rust}\n  our program at last: {ours}");
        }
    }
    Ok(tally)
}
