//! Conversions, tables, sine, ratio and draws. Fields above their largest number get 6 and parameters outside their
//! range 7, in the order of the rules (docs/RULES.md); a refused value is written as 0.

use crate::entry::draw::{Draw, quiet};
use crate::entry::rust::{mark, step};
use crate::entry::{Entry, entry};
use crate::wire::answer::Answer;
use crate::wire::kind::Kind::{F32, I32, U8, U8s, U32};
use plaits::fm::dx_units::*;
use plaits::fm::patch::{KeyboardScaling, Operator};
use plaits::oscillator::sine_oscillator::{sine, sine_pm};
use plaits::resources::sine::LUT_SINE;
use plaits::utils::units::{LUT_PITCH_RATIO_HIGH, LUT_PITCH_RATIO_LOW, semitones_to_ratio_safe};
use plaits::utils::{interpolate, interpolate_wrap, random};

const FLOAT: &str = "u8 number, f32";
const STEP: &str = "u32, u8 mark: 0 as asked, 1 held at the top, 2 held at zero";

pub const ENTRIES: &[Entry] = &[
    entry(0x30, "pow_2_fast", &[F32, I32], "f32", |given, _, answer| answer.f32(pow_2_fast(given.f32(), given.i32())))
        .drawn(powers)
        .every(SPREAD * ORDERS, every_power),
    entry(0x31, "operator_level", &[U8], "u8 number, u8", |given, _, answer| {
        let level = given.u8();
        let number = field(level, 99);
        answer.name("number").u8(number);
        answer.name("level").u8(if number == 0 { operator_level(level) } else { 0 });
    })
    .drawn(|draw| one(draw, 99))
    .every(256, every_u8),
    entry(0x32, "pitch_envelope_level", &[U8], FLOAT, |given, _, answer| {
        convert(answer, given.u8(), 99, pitch_envelope_level)
    })
    .drawn(|draw| one(draw, 99))
    .every(256, every_u8),
    entry(0x33, "operator_envelope_increment", &[U8], FLOAT, |given, _, answer| {
        convert(answer, given.u8(), 99, operator_envelope_increment)
    })
    .drawn(|draw| one(draw, 99))
    .every(256, every_u8),
    entry(0x34, "pitch_envelope_increment", &[U8], FLOAT, |given, _, answer| {
        convert(answer, given.u8(), 99, pitch_envelope_increment)
    })
    .drawn(|draw| one(draw, 99))
    .every(256, every_u8),
    entry(0x35, "lfo_frequency", &[U8], FLOAT, |given, _, answer| convert(answer, given.u8(), 99, lfo_frequency))
        .drawn(|draw| one(draw, 99))
        .every(256, every_u8),
    entry(0x36, "lfo_delay", &[U8], "u8 number, f32, f32", |given, _, answer| {
        let delay = given.u8();
        let number = field(delay, 99);
        let mut increments = [0.0; 2];
        if number == 0 {
            lfo_delay(delay, &mut increments);
        }
        answer.name("number").u8(number);
        answer.name("increments").f32s(&increments);
    })
    .drawn(|draw| one(draw, 99))
    .every(256, every_u8),
    entry(0x37, "normalize_velocity", &[F32], FLOAT, |given, _, answer| {
        let velocity = given.f32();
        value_or_number(answer, range(velocity, 1.0), || normalize_velocity(velocity));
    })
    .drawn(|draw| {
        let velocity = parameter(draw, 1.0);
        draw.f32(velocity);
    })
    .every(1 << 20, |nth, draw| draw.f32(nth as f32 / ((1 << 20) - 1) as f32)),
    entry(0x38, "rate_scaling", &[F32, U8], FLOAT, |given, _, answer| {
        let (note, scaling) = (given.f32(), given.u8());
        value_or_number(answer, either(field(scaling, 7), range(note, 127.0)), || rate_scaling(note, scaling));
    })
    .drawn(|draw| {
        let note = parameter(draw, 127.0);
        draw.f32(note);
        one(draw, 7);
    })
    .every(256 * 513, |nth, draw| {
        draw.f32((nth / 256) as f32 * 0.25 - 0.25);
        draw.u8(nth as u8);
    }),
    entry(0x39, "amp_mod_sensitivity", &[U8], FLOAT, |given, _, answer| {
        convert(answer, given.u8(), 3, amp_mod_sensitivity)
    })
    .drawn(|draw| one(draw, 3))
    .every(256, every_u8),
    entry(0x3a, "pitch_mod_sensitivity", &[U8], FLOAT, |given, _, answer| {
        convert(answer, given.u8(), 7, pitch_mod_sensitivity)
    })
    .drawn(|draw| one(draw, 7))
    .every(256, every_u8),
    entry(0x3b, "keyboard_scaling", &[F32, U8s(5)], FLOAT, |given, _, answer| {
        let (note, [left_depth, right_depth, left_curve, right_curve, break_point]) = (given.f32(), given.u8s());
        let depths = either(field(left_depth, 99), field(right_depth, 99));
        let curves = either(field(left_curve, 3), field(right_curve, 3));
        let number = either(either(depths, curves), either(field(break_point, 99), range(note, 127.0)));
        let scaling = KeyboardScaling { left_depth, right_depth, left_curve, right_curve, break_point };
        value_or_number(answer, number, || keyboard_scaling(note, &scaling));
    })
    .drawn(scalings)
    .every(128 * 100 * 4 * 10, every_scaling),
    entry(
        0x3c,
        "frequency_ratio",
        &[U8s(4)],
        "u8 number, u8 kind (0 to the note, 1 to 1 Hz), f32",
        |given, _, answer| {
            let [mode, coarse, fine, detune] = given.u8s();
            let number = either(either(field(mode, 1), field(coarse, 31)), either(field(fine, 99), field(detune, 14)));
            let kind = if number == 0 { mode } else { 0 };
            answer.name("number").u8(number);
            answer.name("kind").u8(kind);
            let operator = Operator { mode, coarse, fine, detune, ..Operator::default() };
            answer.name("ratio").f32(if number == 0 { frequency_ratio(&operator) } else { 0.0 });
        },
    )
    .drawn(|draw| [1, 31, 99, 14].into_iter().for_each(|most| one(draw, most)))
    .every(3 * 33 * 101 * 16, |nth, draw| {
        [nth / (33 * 101 * 16), nth / (101 * 16) % 33, nth / 16 % 101, nth % 16]
            .into_iter()
            .for_each(|x| draw.u8(x as u8));
    }),
    entry(0x3d, "frequency_step", &[F32], STEP, |given, _, answer| {
        let frequency = given.f32();
        answer.name("step").u32(step(frequency));
        answer.name("mark").u8(mark(frequency));
    })
    .drawn(|draw| {
        let frequency = if draw.one_in(4) { draw.unit() } else { draw.quiet_f32() };
        draw.f32(frequency);
    })
    .every(SPREAD, |nth, draw| draw.f32(quiet(pattern(nth, SPREAD)))),
    entry(0x3e, "sine", &[F32], "f32", |given, _, answer| answer.f32(sine(given.f32())))
        .drawn(|draw| {
            let phase = index(draw);
            draw.f32(phase);
        })
        .every(1 << 20, |nth, draw| {
            draw.f32(if nth % 2 == 0 { pattern(nth, 1 << 20) } else { nth as f32 / (1 << 18) as f32 })
        }),
    entry(0x3f, "sine_pm", &[U32, F32], "f32", |given, _, answer| answer.f32(sine_pm(given.u32(), given.f32())))
        .drawn(modulations)
        .every(1 << 20, every_modulation),
    entry(0x40, "semitones_to_ratio_safe", &[F32], "f32, 1 for NaN or outside −240 to 240", |given, _, answer| {
        let semitones = given.f32();
        let inside = (-240.0..=240.0).contains(&semitones);
        answer.f32(if inside { semitones_to_ratio_safe(semitones) } else { 1.0 });
    })
    .drawn(semitones)
    .every(1 << 20, |nth, draw| draw.f32((nth as f64 / ((1 << 20) - 1) as f64 * 482.0 - 241.0) as f32)),
    entry(0x41, "get_float", &[U32], "u32 the generator's number, f32", |given, _, answer| {
        let (value, number) = drawn(given.u32(), random::get_float);
        answer.name("number").u32(number);
        answer.name("draw").f32(value);
    })
    .every(8 << 18, |nth, draw| {
        let start = [0, 1, 0x21, 0x7fff_ffff, 0x8000_0000, u32::MAX, 0x1234_5678, 1_013_904_223][(nth >> 18) as usize];
        draw.u32(later(start, nth & ((1 << 18) - 1)));
    }),
    entry(0x42, "interpolate", &[U8, F32, F32], LOOKUP, |given, _, answer| {
        let (table, index, size) = (table(given.u8()), given.f32(), given.f32());
        answer.f32(held(table, index, size).unwrap_or_else(|| interpolate(table, index, size)));
    })
    .drawn(lookups),
    entry(0x43, "interpolate_wrap", &[U8, F32, F32], "f32; as 42", |given, _, answer| {
        let (table, index, size) = (table(given.u8()), given.f32(), given.f32());
        let part = index - index as i32 as f32;
        answer.f32(held(table, part, size).unwrap_or_else(|| interpolate_wrap(table, index, size)));
    })
    .drawn(lookups),
    entry(0x44, "table_entry", &[U8, U32], TABLES, |given, _, answer| {
        let (name, place) = (given.u8(), given.usize());
        let table: &[f32] = match name {
            0 => &LUT_SINE,
            1 => &LUT_PITCH_RATIO_HIGH,
            2 => &LUT_PITCH_RATIO_LOW,
            3 => &LUT_AMP_MOD_SENSITIVITY,
            4 => &LUT_PITCH_MOD_SENSITIVITY,
            5 => &LUT_COARSE,
            6 => &LUT_CUBE_ROOT,
            _ => &[],
        };
        answer.f32(table.get(place).copied().unwrap_or(0.0));
    })
    .drawn(|draw| {
        let table = draw.below(9) as u8;
        let place = if draw.one_in(8) { draw.any_u32() } else { draw.below(700) };
        draw.u8(table);
        draw.u32(place);
    })
    .every(8 * 700, |nth, draw| {
        draw.u8((nth / 700) as u8);
        draw.u32((nth % 700) as u32);
    }),
    entry(0x45, "get_word", &[U32], "u32", |given, _, answer| answer.u32(drawn(given.u32(), random::get_word).0)),
    entry(0x46, "level_chart", &[U32], "u8, 0 past the end", |given, _, answer| {
        let level = given.u32();
        answer.name("level").u8(if level < 100 { operator_level(level as u8) } else { 0 });
    })
    .drawn(|draw| {
        let level = match draw.below(4) {
            0 => draw.any_u32(),
            1 => draw.below(256),
            _ => draw.below(100),
        };
        draw.u32(level);
    })
    .every(CHARTED + 16 * 200, every_place),
];

/// So many places of the chart from 0 on, all but 100 of them past its end.
const CHARTED: u64 = 65_536;

const LOOKUP: &str = "f32; table 0 sine, 1 high ratios, else low; at its last entry and past it that entry";

const TABLES: &str = "f32, 0 past the end; 0 sine, 1 high ratios, 2 low ratios, \
    3 amplitude and 4 pitch sensitivities, 5 coarse, 6 cube roots";

/// The orders from −1 to 5, and how many float patterns are tried.
const ORDERS: u64 = 7;
const SPREAD: u64 = 10_000_000;

/// 6 for a field above its largest number.
fn field(x: u8, most: u8) -> u8 {
    if x > most { 6 } else { 0 }
}

/// 7 for a parameter that is NaN or outside 0 to `most`.
fn range(x: f32, most: f32) -> u8 {
    if x >= 0.0 && x <= most { 0 } else { 7 }
}

/// The lower of two numbers that apply.
fn either(one: u8, other: u8) -> u8 {
    if one == 0 || other != 0 && other < one { other } else { one }
}

fn value_or_number(answer: &mut Answer, number: u8, value: impl FnOnce() -> f32) {
    answer.name("number").u8(number);
    answer.name("value").f32(if number == 0 { value() } else { 0.0 });
}

fn convert(answer: &mut Answer, x: u8, most: u8, value: fn(u8) -> f32) {
    value_or_number(answer, field(x, most), || value(x));
}

/// The table that a lookup names.
fn table(name: u8) -> &'static [f32] {
    match name {
        0 => &LUT_SINE,
        1 => &LUT_PITCH_RATIO_HIGH,
        _ => &LUT_PITCH_RATIO_LOW,
    }
}

/// The table's last entry where a lookup reaches it or goes past it, at which the Rust panics.
fn held(table: &[f32], index: f32, size: f32) -> Option<f32> {
    let place = (index.clamp(0.0, 1.0) * size) as usize;
    (place >= table.len() - 1).then(|| table[table.len() - 1])
}

/// A draw from a number, and the number after it. The register's own number, which the LFO draws from, stays.
fn drawn<T>(number: u32, draw: fn() -> T) -> (T, u32) {
    let kept = random::state();
    random::seed(number);
    let drawn = (draw(), random::state());
    random::seed(kept);
    drawn
}

/// The generator's number so many draws later.
fn later(number: u32, mut draws: u64) -> u32 {
    let (mut number, mut factor, mut sum) = (number, 1_664_525u32, 1_013_904_223u32);
    while draws > 0 {
        if draws % 2 == 1 {
            number = number.wrapping_mul(factor).wrapping_add(sum);
        }
        sum = sum.wrapping_mul(factor.wrapping_add(1));
        factor = factor.wrapping_mul(factor);
        draws /= 2;
    }
    number
}

/// A field up to `most`, or now and then past it.
fn one(draw: &mut Draw, most: u8) {
    let x = draw.field_or_past(most);
    draw.u8(x);
}

fn every_u8(nth: u64, draw: &mut Draw) {
    draw.u8(nth as u8);
}

/// Places from 0 on; then those around each power of two from 2^16 on, which a shorter number takes for lower ones.
fn every_place(nth: u64, draw: &mut Draw) {
    let past = nth.wrapping_sub(CHARTED);
    let around = (1u64 << (16 + past / 200)) + past % 200 - 100;
    draw.u32(if nth < CHARTED { nth as u32 } else { around as u32 });
}

/// The float pattern with this number among `n` that are spread evenly over all.
fn pattern(nth: u64, n: u64) -> f32 {
    let (from, to) = ((nth << 32) / n, ((nth + 1) << 32) / n);
    f32::from_bits((from + nth.wrapping_mul(0x9e37_79b9) % (to - from)) as u32)
}

/// A number from 0 to `most`, its ends and their neighbours often, now and then any float.
fn parameter(draw: &mut Draw, most: f32) -> f32 {
    match draw.below(8) {
        0 => draw.near(most),
        1 => draw.any_f32(),
        2 => draw.below(most as u32 + 1) as f32,
        3 => draw.one_of(&[0.0, -0.0, f32::from_bits(1), f32::from_bits(0x8000_0001)]),
        _ => draw.unit() * most,
    }
}

/// Whole numbers, halves and numbers beside them too, at which the exponent changes.
fn powers(draw: &mut Draw) {
    let x = match draw.below(4) {
        0 => draw.any_f32(),
        1 => draw.below(260) as f32 - 130.0,
        2 => {
            let whole = draw.below(260) as f32 - 130.0;
            draw.near(whole)
        }
        _ => (draw.unit() - 0.5) * 300.0,
    };
    let order = if draw.one_in(8) { draw.any_u32() } else { draw.below(ORDERS as u32).wrapping_sub(1) };
    draw.f32(x);
    draw.u32(order);
}

fn every_power(nth: u64, draw: &mut Draw) {
    draw.f32(pattern(nth / ORDERS, SPREAD));
    draw.u32(((nth % ORDERS) as u32).wrapping_sub(1));
}

fn scalings(draw: &mut Draw) {
    let break_point = draw.field_or_past(99);
    let note = match draw.below(4) {
        0 => draw.near(break_point as f32 + 15.0),
        _ => parameter(draw, 127.0),
    };
    draw.f32(note);
    [99, 99, 3, 3].into_iter().for_each(|most| one(draw, most));
    draw.u8(break_point);
}

/// All notes, break points and curves, each with ten depths; the other side's numbers differ.
fn every_scaling(nth: u64, draw: &mut Draw) {
    let (note, break_point, curve, depth) = (nth / 4_000, nth / 40 % 100, nth / 10 % 4, nth * 7 % 100);
    draw.f32(note as f32);
    [depth, 99 - depth, curve, 3 - curve, break_point].into_iter().for_each(|x| draw.u8(x as u8));
}

/// A phase or an index: in the table's turn, beside its entries, or any float.
fn index(draw: &mut Draw) -> f32 {
    match draw.below(8) {
        0 | 1 => draw.any_f32(),
        2 => {
            let entry = draw.below(700) as f32 / 512.0;
            draw.near(entry)
        }
        3 => draw.unit() * 1000.0,
        4 => -draw.unit(),
        _ => draw.unit(),
    }
}

/// A phase of 32 bits, and a modulation within ±32, at its ends, or any float.
fn modulations(draw: &mut Draw) {
    let phase = draw.any_u32();
    let modulation = match draw.below(8) {
        0 | 1 => draw.any_f32(),
        2 => {
            let end = draw.one_of(&[-32.0, 32.0, -31.999998, 31.999998]);
            draw.near(end)
        }
        _ => (draw.unit() - 0.5) * 64.0,
    };
    draw.u32(phase);
    draw.f32(modulation);
}

/// Phases spread over the turn; every other modulation any float, the rest from just below −32 to just above 32.
fn every_modulation(nth: u64, draw: &mut Draw) {
    draw.u32((nth << 12) as u32 ^ (nth as u32).wrapping_mul(0x9e37_79b9) >> 20);
    draw.f32(if nth % 2 == 0 { pattern(nth, 1 << 20) } else { (nth % 65_537) as f32 / 1000.0 - 32.7 });
}

fn semitones(draw: &mut Draw) {
    let x = match draw.below(8) {
        0 => draw.any_f32(),
        1 => {
            let end = draw.one_of(&[-240.0, -120.0, 120.0, 240.0]);
            draw.near(end)
        }
        2 => (draw.below(481 * 256) as f32) / 256.0 - 240.5,
        3 => {
            let step = draw.below(481 * 256) as f32 / 256.0 - 240.5;
            draw.near(step)
        }
        _ => (draw.unit() - 0.5) * 482.0,
    };
    draw.f32(x);
}

fn lookups(draw: &mut Draw) {
    let (table, index) = (draw.below(4) as u8, index(draw));
    let size = match draw.below(4) {
        0 => draw.any_f32(),
        1 => draw.one_of(&[0.0, 1.0, 255.0, 256.0, 512.0, 640.0, 641.0]),
        _ => draw.unit() * 700.0,
    };
    draw.u8(table);
    draw.f32(index);
    draw.f32(size);
}
