//! The judge: runs the original Rust by a script of calls, makes such scripts, and compares two programs by them.
//! docs/ORACLE.md describes the script, the entries and the commands.

// In layers, the lowest first: a file uses its own layer and those before it, and no two files use each other.
mod wire; // numbers, arguments and answers
mod entry; // what an entry is, and what it works with
mod groups; // the entries, and the table of their groups
mod table; // entries by number and by name
mod options; // the words of a command line
mod script; // scripts made, read and answered
mod compare; // the Rust against our program, call by call
mod identify; // the Rust's identifiers against our program's
mod smoke; // a quick look after each assembly

#[cfg(test)]
mod layers;

use std::io::{self, Write};
use std::process::ExitCode;

const USAGE: &str = "\
oracle answer                                   a script on standard input, the Rust's answers on standard output
oracle generate [OPTIONS] [--bytes N]           a script on standard output, of at most N bytes
oracle compare [OPTIONS] [--folder DIR] -- PROGRAM [WORDS]   the Rust against PROGRAM
oracle corpus                                   the bank whose identifiers the gate holds
oracle identifiers                              a patch or a bank on standard input, the Rust's identifiers
oracle identify [OPTIONS] [--folder DIR] -- PROGRAM [WORDS]  \
    the Rust's identifiers against PROGRAM's, of --calls patches
oracle order [OPTIONS] -- PROGRAM [WORDS]       which identifiers move with the order of the patches
oracle entries                                  the table of entries
oracle smoke                                    the assembled Rust and the table of entries are as expected
OPTIONS: --seed N (1)   --calls N (1000000)   --entries LIST (all: names, hex numbers or groups, comma separated)
         --every (every call that the entries list, in place of random ones)";

fn run() -> Result<bool, String> {
    let mut words = std::env::args().skip(1);
    let command = words.next().unwrap_or_default();
    let options = options::options(words)?;
    let written = |done: io::Result<()>| done.map(|()| true).map_err(|e| e.to_string());
    match command.as_str() {
        "answer" => written(script::answer::answer()),
        "generate" => written(script::generate::generate(&options)),
        "entries" => written(table::print()),
        "smoke" => Ok(smoke::smoke()),
        "compare" if !options.program.is_empty() => compare::compare(&options),
        "corpus" => written(io::stdout().write_all(&identify::corpus::corpus(0))),
        "identifiers" => written(identify::answer()),
        "identify" if !options.program.is_empty() => identify::compare(&options),
        "order" if !options.program.is_empty() => identify::order(&options),
        _ => Err(format!("usage:\n{USAGE}")),
    }
}

fn main() -> ExitCode {
    match run() {
        Ok(true) => ExitCode::SUCCESS,
        Ok(false) => ExitCode::FAILURE,
        Err(why) => {
            eprintln!("oracle: {why}");
            ExitCode::from(2)
        }
    }
}
