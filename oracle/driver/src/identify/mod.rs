//! Identifiers of patches: the program `identify` is compared with the Rust, line by line, over banks and single
//! patches. And what becomes of the Rust's identifiers where nobody sets its hidden generator's number.

pub mod corpus;
pub mod identifier;
pub mod inputs;
pub mod lines;

use crate::entry::draw::Draw;
use crate::groups::bank::bank;
use crate::identify::identifier::{Hidden, identifier, table};
use crate::identify::inputs::{input, random_bank, slots};
use crate::identify::lines::{Lines, unpacked};
use crate::options::Options;
use plaits::utils::random;
use std::io::{self, Read};

/// The Rust's lines for what is on standard input.
pub fn answer() -> io::Result<()> {
    let mut input = Vec::new();
    io::stdin().read_to_end(&mut input)?;
    let lines = Lines::of_rust(&table(), &input);
    lines.output.iter().for_each(|line| println!("{line}"));
    lines.error.iter().for_each(|line| eprintln!("{line}"));
    Ok(())
}

/// Compares the Rust with a program until so many patches have been asked for.
pub fn compare(options: &Options) -> Result<bool, String> {
    let table = table();
    let mut draw = Draw::new(options.seed);
    let (mut patches, mut refused) = (0, 0);
    for turn in 0.. {
        let input = input(&mut draw, turn);
        let ours = Lines::of_program(&options.program, &input)?;
        let rust = Lines::of_rust(&table, &input);
        if ours != rust {
            let file = format!("{}/identify.input", options.folder);
            std::fs::write(&file, &input).map_err(|e| format!("{file}: {e}"))?;
            println!("input {turn} of seed {} differs, and is kept in {file}", options.seed);
            tell("standard output", &rust.output, &ours.output);
            tell("standard error", &rust.error, &ours.error);
            return Ok(false);
        }
        refused += rust.error.len();
        patches += rust.count() as u64;
        if patches >= options.calls {
            let inputs = turn + 1;
            println!("seed {}: {patches} lines of {inputs} inputs agree, {refused} of them refusals", options.seed);
            return Ok(true);
        }
    }
    unreachable!()
}

/// The lines of a stream that differ, at most 40 of them.
fn tell(stream: &str, rust: &[String], ours: &[String]) {
    let places = (0..rust.len().max(ours.len())).filter(|&place| rust.get(place) != ours.get(place));
    for place in places.take(40) {
        let line = |lines: &[String]| lines.get(place).cloned().unwrap_or("(no line)".to_string());
        println!("Rust: {}\nours: {}", line(rust), line(ours));
    }
    println!("on {stream} {} lines of the Rust, {} of ours", rust.len(), ours.len());
}

/// Asks for the patches of banks in order and the other way round, with the Rust's hidden number left alone, and says
/// how many identifiers move; those of a program must not.
pub fn order(options: &Options) -> Result<bool, String> {
    let table = table();
    let mut draw = Draw::new(options.seed);
    let (mut patches, mut moved, mut held, mut ours_moved) = (0, 0, 0, 0);
    while patches < options.calls {
        let dump = random_bank(&mut draw);
        let turned = bank(0, &slots(&dump).rev().flat_map(|(_, bytes)| bytes.to_vec()).collect::<Vec<u8>>());
        let whole = |(_, bytes)| identifier(&table, &unpacked(bytes), Hidden::LeftAlone);
        random::seed(0x21);
        let there: Vec<u64> = slots(&dump).map(whole).collect();
        random::seed(0x21);
        let mut back: Vec<u64> = slots(&turned).map(whole).collect();
        back.reverse();
        let each = there.iter().zip(&back).zip(slots(&dump));
        for ((there, back), (slot, bytes)) in each.filter(|((there, back), _)| there != back) {
            let wave = unpacked(bytes).modulations.waveform;
            if moved < 3 {
                let bank = patches / 32;
                println!(
                    "Rust, bank {bank}, slot {slot:02}, wave {wave}: {there:016x} in order, \
                     {back:016x} the other way round"
                );
            }
            moved += 1;
            held += (wave == 5) as u64;
        }
        let (there, back) = (bank_lines(&options.program, &dump)?, bank_lines(&options.program, &turned)?);
        // All but the slot's number.
        let both = there.iter().zip(back.iter().rev());
        ours_moved += both.filter(|(there, back)| there.get(2..) != back.get(2..)).count();
        patches += 32;
    }
    println!(
        "seed {}: {patches} patches in order and the other way round: {moved} identifiers of the Rust move, \
         {held} of them of the sample-and-hold wave; of ours {ours_moved}",
        options.seed
    );
    Ok(ours_moved == 0)
}

/// A program's lines of a sound bank, by slot.
fn bank_lines(program: &[String], dump: &[u8]) -> Result<Vec<String>, String> {
    let lines = Lines::of_program(program, dump)?.by_slot().filter(|lines| lines.len() == 32);
    lines.ok_or("the program does not print the 32 lines of a bank, each on its stream".to_string())
}
