//! What the judge tells people: numbers, arguments, answers and scripts in hex and readable.

use crate::compare::side::{Frame, Said};
use crate::entry::{Call, Entry};
use crate::script::answer::marks;
use crate::wire::kind::{Kind, split};

/// So many calls of a script, and so many numbers of an answer, are printed.
const MOST: usize = 40;

/// Bytes in hex, the first thousand of them.
pub fn hex(bytes: &[u8]) -> String {
    let shown: String = bytes.iter().take(1000).map(|byte| format!("{byte:02x}")).collect();
    if bytes.len() > 1000 { format!("{shown}.. ({} bytes)", bytes.len()) } else { shown }
}

/// An argument or a number of an answer, by its bits and readable.
fn value(kind: Kind, bytes: &[u8]) -> String {
    let bits = bytes.iter().rev().fold(0u64, |sum, &byte| sum << 8 | byte as u64);
    match kind {
        Kind::U8 | Kind::Bool => format!("{bits}"),
        Kind::U32 => format!("{bits:08x} ({bits})"),
        Kind::I32 => format!("{bits:08x} ({})", bits as u32 as i32),
        Kind::U64 => format!("{bits:016x} ({bits})"),
        Kind::F32 => format!("{bits:08x} ({:?})", f32::from_bits(bits as u32)),
        _ => hex(bytes),
    }
}

pub fn arguments(entry: &Entry, bytes: &[u8]) -> String {
    let list = split(entry.arguments, bytes).map(|(what, bytes)| format!("{} {}", what.words(), value(what, bytes)));
    if entry.arguments.is_empty() { "none".to_string() } else { list.collect::<Vec<_>>().join(", ") }
}

/// A closing line, an answer in hex, or an end without either.
pub fn said(said: &Said) -> String {
    match said.0 {
        Frame::Closing => format!("`{}`", said.1.escape_ascii()),
        Frame::Answer(entry) => format!("entry {entry:02x} answers {}", hex(&said.1)),
        Frame::Ended => "it ended, or let wait, without an answer".to_string(),
    }
}

/// Both answers to the last call: the numbers that differ, where both have the same number of bytes, else all of them.
pub fn answers(calls: &[Call], rust: &Said, ours: &Said) {
    let alike = matches!(rust.0, Frame::Answer(_)) && rust.0 == ours.0 && rust.1.len() == ours.1.len();
    let marks = if alike { marks(calls) } else { Vec::new() };
    if marks.is_empty() {
        println!("  the Rust:    {}\n  our program: {}", said(rust), said(ours));
    }
    let place = |at: usize, kind: Kind| at..at + kind.size(&[]);
    let differing = marks.iter().filter(|mark| rust.1[place(mark.at, mark.kind)] != ours.1[place(mark.at, mark.kind)]);
    for mark in differing.take(MOST) {
        let tell = |said: &Said| value(mark.kind, &said.1[place(mark.at, mark.kind)]);
        println!("  {} at byte {} of the answer", [mark.name, &mark.kind.words()].join(" ").trim(), mark.at);
        println!("    the Rust:    {}\n    our program: {}", tell(rust), tell(ours));
    }
}

/// A script in hex, a call to a line and a space between arguments.
pub fn script(calls: &[Call]) {
    for (entry, bytes) in calls.iter().take(MOST) {
        let arguments = split(entry.arguments, &bytes[1..]).map(|(_, bytes)| format!(" {}", hex(bytes)));
        println!("    {:02x}{}", entry.number, arguments.collect::<String>());
    }
    if calls.len() > MOST {
        println!("    .. and {} calls more", calls.len() - MOST);
    }
}
