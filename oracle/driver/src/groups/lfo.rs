//! The LFO. The generator's number is the Rust's own: set before a call, read after it. A phase not in 0 ≤ phase < 1
//! and a frequency negative or not finite get 9, then a sample rate 5, a field 6, a scale or sample 7.

use crate::entry::draw::Draw;
use crate::entry::registers::Registers;
use crate::entry::{Entry, entry};
use crate::groups::patch::modulations_fit;
use crate::wire::answer::Answer;
use crate::wire::arguments::Arguments;
use crate::wire::forms;
use crate::wire::kind::Kind::{Bool, F32, F32s, I32, U8, U8s, U32};
use plaits::fm::dx_units::lfo_frequency;
use plaits::fm::lfo::Lfo;
use plaits::fm::patch::ModulationParameters;
use plaits::utils::random;

const STATE: &str = "u8 number, the LFO and the generator's number";
const PUT: &str = "the LFO and the generator's number: 10 × f32, u8 waveform, bool, i32, u32";
const LENT: &str = "as without `_with`";

pub const ENTRIES: &[Entry] = &[
    entry(0x60, "put_lfo", &[F32s(10), U8, Bool, I32, U32], PUT, |given, registers, answer| {
        forms::lfo(given, &mut registers.lfo);
        random::seed(given.u32());
        write(answer, registers);
    })
    .drawn(states)
    .with_state()
    .weight(2),
    entry(0x61, "lfo_init", &[F32], STATE, |given, registers, answer| {
        let sample_rate = given.f32();
        let number = if (8_000.0..=192_000.0).contains(&sample_rate) { 0 } else { 5 };
        match number {
            0 => registers.lfo.init(sample_rate),
            _ => registers.lfo = nothing(),
        }
        answer.name("number").u8(number);
        write(answer, registers);
    })
    .drawn(|draw| {
        let rate = match draw.below(4) {
            0 => {
                let end = draw.one_of(&[8_000.0, 192_000.0]);
                draw.near(end)
            }
            1 => draw.any_f32(),
            _ => draw.one_of(&RATES),
        };
        draw.f32(rate);
    })
    .every(1, |_, draw| {
        let rate = draw.one_of(&RATES);
        draw.f32(rate);
    })
    .with_state()
    .weight(1),
    entry(0x62, "lfo_set", &[U8s(7)], STATE, |given, registers, answer| {
        let mut modulations = ModulationParameters::default();
        forms::modulations(given, &mut modulations);
        let number = match state(&registers.lfo) {
            0 if !modulations_fit(&modulations, 7) => 6,
            number => number,
        };
        if number == 0 {
            registers.lfo.set(&modulations);
        }
        answer.name("number").u8(number);
        write(answer, registers);
    })
    .drawn(|draw| {
        for most in [99, 99, 99, 99, 1, 5, 7] {
            let x = if draw.one_in(24) { draw.field_or_past(most) } else { draw.field(most) };
            draw.u8(x);
        }
    })
    .every(100 * 100 * 6, |nth, draw| {
        let fields = [nth % 100, nth / 100 % 100, nth % 99, nth / 7 % 100, nth % 2, nth / 10_000, nth % 8];
        fields.into_iter().for_each(|x| draw.u8(x as u8));
    })
    .with_state()
    .weight(3),
    entry(0x63, "lfo_reset", &[], STATE, |_, registers, answer| {
        let number = state(&registers.lfo);
        if number == 0 {
            registers.lfo.reset();
        }
        answer.name("number").u8(number);
        write(answer, registers);
    })
    .with_state()
    .weight(2),
    entry(0x64, "lfo_step", &[F32], STATE, step)
        .drawn(scales)
        .every(1 << 18, |_, draw| scales(draw))
        .with_state()
        .weight(32),
    entry(0x65, "lfo_scrub", &[F32], STATE, scrub)
        .drawn(samples)
        .every(1 << 18, |_, draw| samples(draw))
        .with_state()
        .weight(16),
    entry(0x66, "lfo_value", &[], "u8 number, f32", |_, registers, answer| read(answer, registers, Lfo::value))
        .with_state()
        .weight(4),
    entry(0x67, "delay_ramp", &[], "u8 number, f32", |_, registers, answer| read(answer, registers, Lfo::delay_ramp))
        .with_state()
        .weight(4),
    entry(0x68, "pitch_mod", &[], "u8 number, f32", |_, registers, answer| read(answer, registers, Lfo::pitch_mod))
        .with_state()
        .weight(4),
    entry(0x69, "amp_mod", &[], "u8 number, f32", |_, registers, answer| read(answer, registers, Lfo::amp_mod))
        .with_state()
        .weight(4),
    entry(0x6a, "lfo_step_with", &[F32], LENT, step).drawn(scales).with_state().weight(8),
    entry(0x6b, "lfo_scrub_with", &[F32], LENT, scrub).drawn(samples).with_state().weight(8),
    entry(0x6c, "lfo_value_with", &[], LENT, |_, registers, answer| read(answer, registers, Lfo::value))
        .with_state()
        .weight(4),
];

const RATES: [f32; 6] = [8_000.0, 22_050.0, 44_100.0, 48_000.0, 96_000.0, 192_000.0];

fn write(answer: &mut Answer, registers: &mut Registers) {
    forms::lfo(answer, &mut registers.lfo);
    answer.name("generator's number").u32(random::state());
}

/// What a refused start hands out: zeros, but for a phase that every other entry refuses with 9.
fn nothing() -> Lfo {
    let mut lfo = Lfo::new();
    lfo.phase = 1.0;
    lfo
}

/// 9 for a state that no accepted call hands back.
fn state(lfo: &Lfo) -> u8 {
    let phase = lfo.phase >= 0.0 && lfo.phase < 1.0;
    if phase && lfo.frequency >= 0.0 && lfo.frequency.is_finite() { 0 } else { 9 }
}

/// 9, or 7 for a number that is not finite, negative, or whose product with the frequency is not below `most`.
fn moving(lfo: &Lfo, x: f32, most: f32) -> u8 {
    match state(lfo) {
        0 if !(x.is_finite() && x >= 0.0 && x * lfo.frequency < most) => 7,
        number => number,
    }
}

fn step(given: &mut Arguments, registers: &mut Registers, answer: &mut Answer) {
    let scale = given.f32();
    let number = moving(&registers.lfo, scale, 1.0);
    if number == 0 {
        registers.lfo.step(scale);
    }
    answer.name("number").u8(number);
    write(answer, registers);
}

fn scrub(given: &mut Arguments, registers: &mut Registers, answer: &mut Answer) {
    let sample = given.f32();
    let number = moving(&registers.lfo, sample, 2f32.powi(31));
    if number == 0 {
        registers.lfo.scrub(sample);
    }
    answer.name("number").u8(number);
    write(answer, registers);
}

fn read(answer: &mut Answer, registers: &Registers, value: fn(&Lfo) -> f32) {
    let number = state(&registers.lfo);
    answer.name("number").u8(number);
    answer.name("value").f32(if number == 0 { value(&registers.lfo) } else { 0.0 });
}

/// A float of a state: of its own range, or any.
fn float(draw: &mut Draw) -> f32 {
    match draw.below(8) {
        0 => draw.any_f32(),
        1 => {
            let test = draw.one_of(&[0.0, 0.5, 1.0]);
            draw.near(test)
        }
        _ => draw.unit(),
    }
}

/// Frequencies as patches bring them, or powers of two, whose products with scales lie near whole numbers.
fn frequency(draw: &mut Draw) -> f32 {
    match draw.below(8) {
        0 => draw.any_f32(),
        1 | 2 => 2f32.powi(-(draw.below(20) as i32)),
        3 => draw.unit(),
        _ => lfo_frequency(draw.field(99)) / draw.one_of(&RATES),
    }
}

fn states(draw: &mut Draw) {
    let phase = match draw.below(16) {
        0 => draw.any_f32(),
        1 => draw.one_of(&[0.0, -0.0, 0.5, 0.49999997, 0.99999994, 1.0]),
        _ => draw.below(1 << 24) as f32 / (1 << 24) as f32,
    };
    let frequency = frequency(draw);
    draw.f32(phase);
    draw.f32(frequency);
    for place in 2..10 {
        let x = match place {
            3 | 4 => draw.unit() * draw.one_of(&[1.0, 0.1, 0.001]),
            7 => 1.0 / draw.one_of(&RATES),
            _ => float(draw),
        };
        let x = if draw.one_in(24) { draw.any_f32() } else { x };
        draw.f32(x);
    }
    let waveform = draw.field_or_past(5);
    let reset = draw.below(2) as u8;
    let whole = if draw.one_in(4) { draw.any_u32() } else { draw.below(10) };
    let number = draw.any_u32();
    draw.u8(waveform);
    draw.u8(reset);
    draw.u32(whole);
    draw.u32(number);
}

/// Scales of blocks, or such that a product with a frequency is near 1, or any float.
fn scales(draw: &mut Draw) {
    let x = match draw.below(16) {
        0 => draw.any_f32(),
        1 => {
            let power = 2f32.powi(draw.below(20) as i32);
            draw.near(power)
        }
        2 => draw.unit() * 4.0,
        3 => draw.unit() * 2e4,
        4 => draw.one_of(&[0.0, -0.0]),
        _ => draw.one_of(&[1.0, 24.0, 64.0, 128.0, 512.0, 1000.0]),
    };
    draw.f32(x);
}

/// Samples of a scrub: within some turns, far on, such that a product is near 2^31, or any float.
fn samples(draw: &mut Draw) {
    let x = match draw.below(16) {
        0 => draw.any_f32(),
        1 => {
            let power = 2f32.powi(draw.below(52) as i32);
            draw.near(power)
        }
        2 => draw.unit() * 1e9,
        3 => draw.one_of(&[0.0, -0.0, 1.0]),
        _ => draw.unit() * draw.one_of(&[100.0, 1e4, 1e5, 1e6]),
    };
    draw.f32(x);
}
