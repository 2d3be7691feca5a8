//! The endless script that a seed stands for.

use crate::entry::Entry;
use crate::entry::draw::Draw;
use crate::options::Options;
use crate::table::{ByNumber, by_number};
use std::io::{self, Write};

/// The script of a seed over some entries: each of them once, in order, by hand where it has such a call, and then at
/// random without end. Or, where every call is asked for, all those that the entries list, one entry after the other.
pub struct Generator {
    draw: Draw,
    entries: Vec<&'static Entry>,
    wheel: Vec<&'static Entry>,
    table: ByNumber,
    every: bool,
    made: u64,
}

impl Generator {
    pub fn new(seed: u64, entries: &[&'static Entry]) -> Self {
        let wheel = entries.iter().flat_map(|&entry| std::iter::repeat_n(entry, entry.weight as usize)).collect();
        let (draw, entries, table) = (Draw::new(seed), entries.to_vec(), by_number());
        Generator { draw, entries, wheel, table, every: false, made: 0 }
    }

    /// The script that a command line asks for.
    pub fn of(options: &Options) -> Self {
        Generator { every: options.every, ..Generator::new(options.seed, &options.entries) }
    }

    /// The next call: its entry and its bytes.
    pub fn next(&mut self) -> (&'static Entry, &[u8]) {
        let made = self.made;
        self.made += 1;
        if self.every {
            return self.listed(made);
        }
        let (entry, first) = match self.entries.get(made as usize) {
            Some(&entry) => (entry, entry.first),
            None => (self.chosen(), None),
        };
        self.draw.begin(entry.number);
        match first.or(entry.draw) {
            Some(draw) => draw(&mut self.draw),
            None => entry.arguments.iter().for_each(|&kind| self.draw.by_kind(kind)),
        }
        (entry, self.draw.call())
    }

    /// An entry that comes now, at random by the weights.
    fn chosen(&mut self) -> &'static Entry {
        loop {
            let entry = self.draw.one_of(&self.wheel);
            if entry.when.is_none_or(|when| when(&mut self.draw)) {
                return entry;
            }
        }
    }

    /// The call with this number among all that the entries list. Its first byte tells the entry that it is of.
    fn listed(&mut self, mut number: u64) -> (&'static Entry, &[u8]) {
        for entry in &self.entries {
            let Some(every) = &entry.every else { continue };
            if number < every.calls {
                self.draw.begin(entry.number);
                (every.draw)(number, &mut self.draw);
                let call = self.draw.call();
                return (self.table[call[0] as usize].expect("a listed call is of an entry"), call);
            }
            number -= every.calls;
        }
        panic!("the entries list fewer calls");
    }
}

/// Writes calls to standard output until the number of calls or of bytes is reached.
pub fn generate(options: &Options) -> io::Result<()> {
    let mut out = io::BufWriter::with_capacity(1 << 16, io::stdout().lock());
    let mut script = Generator::of(options);
    let mut room = options.bytes;
    for _ in 0..options.calls {
        let (_, call) = script.next();
        if call.len() as u64 > room {
            break;
        }
        room -= call.len() as u64;
        out.write_all(call)?;
    }
    out.flush()
}
