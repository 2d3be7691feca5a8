//! The bank of our own making whose identifiers the gate holds: every algorithm, all six LFO waves, both modes, every
//! feedback, and rates and levels at their ends and between them.

use crate::groups::bank::bank;
use crate::groups::patch::pack;
use plaits::fm::patch::{Envelope, KeyboardScaling, ModulationParameters, Operator, Patch};

const WAVES: [&str; 6] = ["TRI", "DWN", "UP ", "SQR", "SIN", "S+H"];

/// Rates and levels: struck, held, slow, all rates 0 from the loudest level, all rates 99 between the ends, and one
/// that never sounds.
const ENVELOPES: [([u8; 4], [u8; 4]); 6] = [
    ([99, 70, 40, 60], [99, 85, 60, 0]),
    ([99, 99, 99, 99], [99, 99, 99, 0]),
    ([60, 45, 30, 40], [99, 90, 80, 0]),
    ([0, 0, 0, 0], [0, 99, 0, 99]),
    ([99, 99, 99, 99], [99, 0, 99, 0]),
    ([99, 0, 99, 0], [0, 0, 0, 0]),
];

fn operator(slot: u8, place: u8) -> Operator {
    let k = slot * 6 + place;
    // The first three kinds make up most of the bank, and the ends turn up in every algorithm.
    let kind = if k % 5 == 4 { 3 + k / 5 % 3 } else { k % 3 };
    let (rate, level) = ENVELOPES[kind as usize];
    Operator {
        envelope: Envelope { rate, level },
        keyboard_scaling: KeyboardScaling {
            left_depth: [0, 99, 20][(k % 3) as usize],
            right_depth: [0, 15, 99, 40][(k % 4) as usize],
            left_curve: k % 4,
            right_curve: k / 4 % 4,
            break_point: [0, 39, 60, 99][(k / 3 % 4) as usize],
        },
        rate_scaling: k % 8,
        amp_mod_sensitivity: k % 4,
        velocity_sensitivity: k / 2 % 8,
        level: [99, 82, 90, 75, 99, 60, 0][(k % 7) as usize],
        mode: (k % 9 == 5) as u8,
        coarse: [1, 1, 2, 0, 3, 1, 14, 31][(k % 8) as usize],
        fine: [0, 0, 50, 99, 1][(k % 5) as usize],
        detune: [7, 0, 14, 8, 6][(k / 2 % 5) as usize],
    }
}

fn patch(slot: u8) -> Patch {
    let (wave, feedback) = (slot % 6, slot % 8);
    let mut patch = Patch::new();
    patch.op = std::array::from_fn(|place| operator(slot, place as u8));
    let still = Envelope { rate: [99; 4], level: [50; 4] };
    patch.pitch_envelope = match slot % 8 {
        3 => Envelope { rate: [80, 60, 40, 70], level: [99, 0, 50, 50] },
        6 => Envelope { rate: [0, 99, 0, 99], level: [0, 99, 50, 99] },
        _ => still,
    };
    patch.algorithm = slot;
    patch.feedback = feedback;
    patch.reset_phase = slot / 8 % 2;
    patch.modulations = ModulationParameters {
        rate: [99, 80, 60, 90, 35, 0][((slot / 6 + slot) % 6) as usize],
        delay: [0, 0, 10, 0, 40, 99][(slot / 3 % 6) as usize],
        pitch_mod_depth: [99, 0, 50, 10][(slot / 5 % 4) as usize],
        amp_mod_depth: [0, 99, 50][(slot / 4 % 3) as usize],
        reset_phase: slot % 2,
        waveform: wave,
        pitch_mod_sensitivity: 7 - slot / 6 % 8,
    };
    patch.transpose = 24;
    let name = format!("A{:02} {} F{feedback}", slot + 1, WAVES[wave as usize]);
    patch.name.copy_from_slice(name.as_bytes());
    patch.active_operators = 63;
    patch
}

/// The bank on a channel; the gate holds that of channel 0.
pub fn corpus(channel: u8) -> Vec<u8> {
    let data: Vec<u8> = (0..32).flat_map(|slot| pack(&patch(slot))).collect();
    bank(channel, &data)
}
