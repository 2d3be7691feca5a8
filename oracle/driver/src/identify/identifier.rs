//! A patch's identifier, by the original Rust: three notes, one hash. The judge compares it with ours, and the
//! benchmark, which has this file too, times both; so it uses no other file of the driver.

use plaits::fm::algorithms::Algorithms;
use plaits::fm::lfo::Lfo;
use plaits::fm::patch::Patch;
use plaits::fm::voice::{Voice, VoiceParameters};
use plaits::utils::random;
use std::cell::RefCell;

const SAMPLE_RATE: f32 = 48_000.0;

/// What is left of what was played before: nothing, or the generator's number.
#[derive(Clone, Copy, PartialEq)]
pub enum Hidden {
    Set,
    LeftAlone,
}

pub type Table = Algorithms<6, 32>;

pub fn table() -> Table {
    let mut table = Table::new();
    table.init();
    table
}

/// 64-bit FNV-1a over the bits of samples, least byte first, a NaN as 7fc00000.
fn hash(mut hash: u64, samples: &[f32]) -> u64 {
    for x in samples {
        let bits = if x.is_nan() { 0x7fc0_0000 } else { x.to_bits() };
        for byte in bits.to_le_bytes() {
            hash = (hash ^ byte as u64).wrapping_mul(0x100_0000_01b3);
        }
    }
    hash
}

fn render(voice: &mut Voice<6, 32>, parameters: &VoiceParameters, quarters: &mut [[f32; 64]; 4]) {
    voice.render(parameters, &quarters.each_mut().map(|quarter| RefCell::new(quarter.as_mut_slice())));
}

/// One note from the beginning, and the hash after it. The scratch is kept from block to block, as the Rust's callers
/// keep it.
fn note(table: &Table, patch: &Patch, note: f32, before: u64, hidden: Hidden) -> u64 {
    if hidden == Hidden::Set {
        random::seed(0x21);
    }
    let mut lfo = Lfo::new();
    lfo.init(SAMPLE_RATE);
    lfo.set(&patch.modulations);
    lfo.reset();
    let mut voice = Voice::new();
    voice.init(table, SAMPLE_RATE);
    voice.set_patch(Some(patch.clone()));
    let (sustain, gate, pitch_mod, amp_mod) = (false, false, 0.0, 0.0);
    let (velocity, brightness, envelope_control) = (0.8, 0.5, 0.5);
    let mut played =
        VoiceParameters { sustain, gate, note, velocity, brightness, envelope_control, pitch_mod, amp_mod };
    let mut quarters = [[0.0; 64]; 4];
    render(&mut voice, &played, &mut quarters);
    let mut sum = before;
    for block in 0..192 {
        quarters[0] = [0.0; 64];
        lfo.step(64.0);
        played.gate = block < 128;
        played.pitch_mod = lfo.pitch_mod();
        played.amp_mod = lfo.amp_mod();
        render(&mut voice, &played, &mut quarters);
        sum = hash(sum, &quarters[0]);
    }
    sum
}

pub fn identifier(table: &Table, patch: &Patch, hidden: Hidden) -> u64 {
    [36.0, 60.0, 84.0].into_iter().fold(0xcbf2_9ce4_8422_2325, |sum, key| note(table, patch, key, sum, hidden))
}
