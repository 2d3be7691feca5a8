//! What is printed for an input, by the Rust and by our program: a line for each identifier on standard output, a line
//! for each refusal on standard error. Our refusals say in words what their number means; the Rust's have no words, and
//! so ours are compared without.

use crate::groups::bank::validate;
use crate::groups::patch::modulations_fit;
use crate::groups::single;
use crate::identify::identifier::{Hidden, Table, identifier};
use crate::identify::inputs::slots;
use plaits::fm::patch::Patch;
use std::io::{self, Write};
use std::process::{Command, Stdio};
use std::thread;

#[derive(Default, PartialEq)]
pub struct Lines {
    pub output: Vec<String>,
    pub error: Vec<String>,
}

pub fn unpacked(bytes: &[u8]) -> Patch {
    let mut patch = Patch::new();
    patch.unpack(bytes);
    patch
}

impl Lines {
    /// The Rust's.
    pub fn of_rust(table: &Table, input: &[u8]) -> Self {
        let mut lines = Lines::default();
        match input.len() {
            0..128 => lines.error.push("refused 1".to_string()),
            128 => lines.patch(table, 0, &unpacked(input)),
            163 => match single::number(input) {
                0 => lines.patch(table, 0, &single::voice(&input[6..161])),
                number => lines.error.push(format!("refused {number}")),
            },
            _ => match validate(input) {
                0 => slots(input).for_each(|(slot, bytes)| lines.patch(table, slot, &unpacked(bytes))),
                number => lines.error.push(format!("refused {number}")),
            },
        }
        lines
    }

    /// The line of a patch.
    fn patch(&mut self, table: &Table, slot: usize, patch: &Patch) {
        let letter = |byte: &u8| if (0x20..=0x7e).contains(byte) { *byte as char } else { '.' };
        let name: String = patch.name.iter().map(letter).collect();
        match modulations_fit(&patch.modulations, 7) {
            true => self.output.push(format!("{slot:02} {name} {:016x}", identifier(table, patch, Hidden::Set))),
            false => self.error.push(format!("{slot:02} {name} refused 6")),
        }
    }

    /// A program's. Both streams are read while it is fed, so that none of them fills and holds it up.
    pub fn of_program(program: &[String], input: &[u8]) -> Result<Self, String> {
        let failed = |e: io::Error| format!("{}: {e}", program[0]);
        let mut child = Command::new(&program[0])
            .args(&program[1..])
            .stdin(Stdio::piped())
            .stdout(Stdio::piped())
            .stderr(Stdio::piped())
            .spawn()
            .map_err(failed)?;
        let mut to = child.stdin.take().unwrap();
        let input = input.to_vec();
        // A program that stops reading is no fault of the feeder: what it printed tells.
        let feeder = thread::spawn(move || drop(to.write_all(&input)));
        let printed = child.wait_with_output().map_err(failed)?;
        let _ = feeder.join();
        let output = String::from_utf8_lossy(&printed.stdout).lines().map(str::to_string).collect();
        let mut error: Vec<String> = String::from_utf8_lossy(&printed.stderr).lines().map(without_words).collect();
        if printed.status.code().is_none() {
            error.push(format!("(ended: {})", printed.status));
        }
        Ok(Lines { output, error })
    }

    pub fn count(&self) -> usize {
        self.output.len() + self.error.len()
    }

    /// The lines of both streams together, in the order of their slots, where each stands on the stream it belongs to.
    pub fn by_slot(self) -> Option<Vec<String>> {
        let tail = |line: &str| line.get(HEAD..).unwrap_or_default().to_string();
        let identified = |line: &String| tail(line).len() == 16 && u64::from_str_radix(&tail(line), 16).is_ok();
        let refused = |line: &String| tail(line).strip_prefix("refused ").is_some_and(|n| n.parse::<u8>().is_ok());
        let sound = self.output.iter().all(identified) && self.error.iter().all(refused);
        let mut lines = [self.output, self.error].concat();
        lines.sort_by(|one, other| one.get(..2).cmp(&other.get(..2)));
        sound.then_some(lines)
    }
}

/// What stands before the identifier or the refusal of a patch: two digits, ten letters, and a space behind each.
const HEAD: usize = 14;

/// A refusal without the colon behind its number and the words. A line that has none is marked, and equals no refusal.
fn without_words(line: &str) -> String {
    let start = if line.starts_with("refused ") { 0 } else { HEAD };
    match line.get(start..).and_then(|refusal| refusal.split_once(": ")) {
        Some((refusal, words)) if !words.trim().is_empty() => format!("{}{refusal}", &line[..start]),
        _ => format!("{line} (without words)"),
    }
}

#[test]
fn words_go() {
    assert_eq!(without_words("refused 13: wrong checksum"), "refused 13");
    // A name may look like a refusal, and words may have a colon.
    assert_eq!(without_words("07 refused 6: refused 6: a field: too large"), "07 refused 6: refused 6");
    assert_eq!(without_words("07 refused 6: 0123456789abcdef"), "07 refused 6: 0123456789abcdef (without words)");
    assert_eq!(without_words("refused 13"), "refused 13 (without words)");
    assert_eq!(without_words("refused 13: "), "refused 13:  (without words)");
}
