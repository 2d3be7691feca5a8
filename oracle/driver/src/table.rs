//! The entries of all groups: by number, by name, and as docs/ORACLE.md lists them.

use crate::entry::Entry;
use crate::groups::{GROUPS, Group};
use std::io::{self, Write};

pub fn all() -> impl Iterator<Item = &'static Entry> {
    GROUPS.iter().flat_map(Group::entries)
}

/// The entries by their numbers.
pub type ByNumber = [Option<&'static Entry>; 256];

pub fn by_number() -> ByNumber {
    let mut table = [None; 256];
    for entry in all() {
        let place = &mut table[entry.number as usize];
        assert!(place.is_none() && entry.number != b's', "entry {:02x} is taken", entry.number);
        *place = Some(entry);
    }
    table
}

/// The entries that a list of names, hex numbers and groups stands for, in the table's order.
pub fn named(list: &str) -> Result<Vec<&'static Entry>, String> {
    let mut chosen = Vec::new();
    for word in list.split(',').map(str::trim).filter(|word| !word.is_empty() && *word != "all") {
        let number = u8::from_str_radix(word.trim_start_matches("0x"), 16).ok();
        let found: Vec<&Entry> = match GROUPS.iter().find(|group| group.name == word) {
            Some(group) => group.entries(),
            None => all().filter(|entry| entry.name == word || Some(entry.number) == number).collect(),
        };
        if found.is_empty() {
            return Err(format!("{word} is no entry and no group"));
        }
        chosen.extend(found.iter().map(|entry| entry.number));
    }
    Ok(all().filter(|entry| chosen.is_empty() || chosen.contains(&entry.number)).collect())
}

/// Writes the table as docs/ORACLE.md has it.
pub fn print() -> io::Result<()> {
    let mut out = io::stdout().lock();
    for group in GROUPS {
        writeln!(out, "#### {}\n\n| no. | entry | arguments | answer |\n|---|---|---|---|", group.name)?;
        for entry in group.entries() {
            let kinds: Vec<String> = entry.arguments.iter().map(|kind| kind.words()).collect();
            writeln!(out, "| {:02x} | {} | {} | {} |", entry.number, entry.name, kinds.join(" "), entry.says)?;
        }
        writeln!(out)?;
    }
    Ok(())
}
