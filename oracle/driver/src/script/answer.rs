//! Answers a script by the Rust: every call in turn, and one closing line.

use crate::entry::Call;
use crate::entry::registers::Registers;
use crate::script::read::{Next, Script};
use crate::wire::answer::{Answer, Mark};
use crate::wire::arguments::Arguments;
use std::io::{self, BufReader, BufWriter, Write};

pub fn answer() -> io::Result<()> {
    let mut script = Script::new(BufReader::with_capacity(1 << 16, io::stdin().lock()));
    let mut out = BufWriter::with_capacity(1 << 16, io::stdout().lock());
    let mut registers = Registers::new();
    let mut answer = Answer::default();
    let mut calls = 0u64;
    let closing = loop {
        match script.next()? {
            Next::End => break format!("script ended after {calls} calls"),
            Next::Cut => break format!("script cut short in call {}", calls + 1),
            Next::Unknown(entry) => break format!("script names unknown entry {entry} in call {}", calls + 1),
            Next::Call(entry) => {
                calls += 1;
                answer.bytes.clear();
                (entry.answer)(&mut Arguments(&script.arguments), &mut registers, &mut answer);
                out.write_all(&[entry.number])?;
                out.write_all(&(answer.bytes.len() as u32).to_le_bytes())?;
                out.write_all(&answer.bytes)?;
            }
        }
    };
    writeln!(out, "{closing}")?;
    out.flush()
}

/// What each number of the last answer to some calls is.
pub fn marks(calls: &[Call]) -> Vec<Mark> {
    let mut registers = Registers::new();
    let mut answer = Answer::default();
    for (entry, call) in calls {
        answer = Answer::marked();
        (entry.answer)(&mut Arguments(&call[1..]), &mut registers, &mut answer);
    }
    answer.marks.unwrap_or_default()
}
