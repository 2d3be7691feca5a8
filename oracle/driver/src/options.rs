//! The words of a command line.

use crate::entry::Entry;
use crate::table;

/// What the words ask for.
pub struct Options {
    pub seed: u64,
    pub calls: u64,
    pub bytes: u64,
    pub entries: Vec<&'static Entry>,
    pub every: bool,
    pub folder: String,
    pub program: Vec<String>,
}

/// Reads the words that follow a command.
pub fn options(mut words: impl Iterator<Item = String>) -> Result<Options, String> {
    let mut options = Options {
        seed: 1,
        calls: u64::MAX,
        bytes: u64::MAX,
        entries: table::all().collect(),
        every: false,
        folder: "target/oracle".to_string(),
        program: Vec::new(),
    };
    while let Some(word) = words.next() {
        if word == "--" {
            options.program = words.by_ref().collect();
            continue;
        }
        if word == "--every" {
            options.every = true;
            continue;
        }
        let value = words.next().ok_or(format!("{word} lacks its value"))?;
        let number = || {
            let digits = value.replace('_', "");
            digits.parse().map_err(|_| format!("{word} {value}: not a number"))
        };
        match word.as_str() {
            "--seed" => options.seed = number()?,
            "--calls" => options.calls = number()?,
            "--bytes" => options.bytes = number()?,
            "--entries" => options.entries = table::named(&value)?,
            "--folder" => options.folder = value,
            _ => return Err(format!("{word} is no option")),
        }
    }
    if options.every {
        let listed = options.entries.iter().filter_map(|entry| entry.every.as_ref()).map(|every| every.calls).sum();
        options.calls = options.calls.min(listed);
    } else if options.calls == u64::MAX {
        options.calls = 1_000_000;
    }
    Ok(options)
}
