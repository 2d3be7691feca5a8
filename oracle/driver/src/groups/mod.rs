//! The groups of entries, and the table of them on top. A new group is a file with its `ENTRIES`, named among the
//! modules, and a line of `GROUPS`.

pub mod algorithms;
pub mod bank;
pub mod envelope;
pub mod lfo;
pub mod numbers;
pub mod patch;
pub mod pieces;
pub mod single;
pub mod transpose;
pub mod units;
pub mod voice;

use crate::entry::Entry;

/// A group as `--entries` and docs/ORACLE.md name it, and the lists of the files that make it up.
pub struct Group {
    pub name: &'static str,
    pub lists: &'static [&'static [Entry]],
}

pub const GROUPS: &[Group] = &[
    Group { name: "numbers", lists: &[numbers::ENTRIES] },
    Group { name: "patches", lists: &[patch::ENTRIES, bank::ENTRIES] },
    Group { name: "singles", lists: &[single::ENTRIES] },
    Group { name: "pieces", lists: &[pieces::ENTRIES] },
    Group { name: "conversions", lists: &[units::ENTRIES] },
    Group { name: "rows", lists: &[algorithms::ENTRIES] },
    Group { name: "envelopes", lists: &[envelope::ENTRIES] },
    Group { name: "lfo", lists: &[lfo::ENTRIES] },
    Group { name: "voices", lists: &[voice::ENTRIES] },
];

impl Group {
    /// Its entries in the order of their numbers.
    pub fn entries(&self) -> Vec<&'static Entry> {
        let mut entries: Vec<&Entry> = self.lists.iter().copied().flatten().collect();
        entries.sort_by_key(|entry| entry.number);
        entries
    }
}
