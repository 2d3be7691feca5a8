//! Runs of calls for a voice's switch (8a): every transpose with the notes whose shifted value meets an end of the
//! range of notes, and the steps beside it.

use crate::entry::draw::Draw;

/// The notes of a transpose: up to two steps around those that are shifted to 0 and to 127, and six others.
const NOTES: u64 = 16;

/// The calls of a run.
const STEPS: u64 = 14;

/// A run for each transpose, note and number of operators.
pub const CALLS: u64 = 49 * NOTES * 2 * STEPS;

/// The nth call of the runs. The switch is turned on before there is a patch, on again, off between blocks and on once
/// more; blocks come blank and sounding, in each state of the switch.
pub fn every(nth: u64, draw: &mut Draw) {
    let (run, step) = (nth / STEPS, nth % STEPS);
    let (operators, run) = ([4, 6][(run % 2) as usize], run / 2);
    let transpose = (run / NOTES) as u8;
    match step {
        0 => {
            draw.begin(0x80);
            draw.u32(operators);
            draw.f32(48_000.0);
        }
        1 | 6 | 11 => switch(draw, 1),
        3 => {
            draw.begin(0x82);
            patch(transpose).into_iter().for_each(|byte| draw.u8(byte));
            draw.u8(0);
        }
        8 => switch(draw, 0),
        13 => draw.begin(0x84),
        _ => block(draw, note(transpose, run % NOTES), transpose % 5 == 4),
    }
}

fn switch(draw: &mut Draw, on: u8) {
    draw.begin(0x8a);
    draw.u8(on);
}

/// The nth note of a transpose.
fn note(transpose: u8, nth: u64) -> f32 {
    let shift = transpose as f32 - 24.0;
    match nth {
        0..5 => beside(0.0 - shift, nth as i32 - 2),
        5..10 => beside(127.0 - shift, nth as i32 - 7),
        _ => [0.0, -0.0, 1e-9, 60.0, 63.3, 127.0][(nth - 10) as usize],
    }
}

/// The float so many steps further from zero.
fn beside(x: f32, steps: i32) -> f32 {
    let size = (x.to_bits() & 0x7fff_ffff) as i32 + steps;
    f32::from_bits(size.max(0) as u32 | x.to_bits() & 0x8000_0000)
}

/// 24 samples at a gate.
fn block(draw: &mut Draw, note: f32, sustain: bool) {
    draw.begin(0x89);
    draw.u8(sustain as u8);
    draw.u8(1);
    [note, 0.8, 0.5, 0.5, 0.0, 0.0].into_iter().for_each(|x| draw.f32(x));
    draw.u32(4 * 24);
    draw.u32(1);
}

/// A packed patch that sounds, and whose levels and rates go by the note: break point 39, depths 99, rate scaling 7.
pub fn patch(transpose: u8) -> [u8; 128] {
    let mut bytes = [0; 128];
    for (op, curves) in bytes.chunks_exact_mut(17).take(6).zip([0, 5, 10, 15, 3, 12]) {
        op.copy_from_slice(&[70, 60, 50, 60, 90, 80, 70, 0, 39, 99, 99, curves, 7 | 7 << 3, 0, 80, 2, 0]);
    }
    bytes[102..110].copy_from_slice(&[60, 60, 60, 60, 50, 60, 40, 50]);
    bytes[110] = 4;
    bytes[117] = transpose;
    bytes
}
