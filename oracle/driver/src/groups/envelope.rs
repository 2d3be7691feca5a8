//! Envelopes. One state serves operators and pitch: a bool says for which of the two a call is made. A stage above 3
//! gets 9 in the state and 6 where it is asked for, rates and levels above 99 and a global level above 127 get 6.

use crate::entry::draw::Draw;
use crate::entry::registers::Registers;
use crate::entry::{Entry, entry};
use crate::wire::forms;
use crate::wire::kind::Kind::{Bool, F32, F32s, U8, U8s, U32};
use plaits::fm::envelope::{Envelope, PitchEnvelope};

const STATE: &str = "u8 number, the envelope";

pub const ENTRIES: &[Entry] = &[
    entry(0x58, "put_envelope", &[U32, F32s(11)], "the envelope: u32 stage, 11 × f32", |given, registers, answer| {
        forms::envelope(given, &mut registers.envelope.0);
        forms::envelope(answer, &mut registers.envelope.0);
    })
    .drawn(states)
    .with_state()
    .weight(1),
    entry(0x59, "envelope_init", &[F32], "the envelope", |given, registers, answer| {
        registers.envelope.0.init(given.f32());
        forms::envelope(answer, &mut registers.envelope.0);
    })
    .drawn(|draw| {
        let scale = scale(draw);
        draw.f32(scale);
    })
    .every(1, |_, draw| {
        let scale = draw.one_of(&SCALES);
        draw.f32(scale);
    })
    .with_state()
    .weight(1),
    entry(0x5a, "operator_set", &[U8s(4), U8s(4), U8], STATE, |given, registers, answer| {
        let (rate, level, global_level) = (given.u8s(), given.u8s(), given.u8());
        let number = match () {
            _ if registers.envelope.0.stage > 3 => 9,
            _ if !fit(&rate) || !fit(&level) || global_level > 127 => 6,
            _ => 0,
        };
        if number == 0 {
            registers.envelope.set(&rate, &level, global_level);
        }
        answer.name("number").u8(number);
        forms::envelope(answer, &mut registers.envelope.0);
    })
    .drawn(|draw| {
        rates_and_levels(draw);
        let global = draw.field_or_past(127);
        draw.u8(global);
    })
    .every(SETS, |nth, draw| {
        every_set(nth, draw);
        draw.u8([127, 100, 64, 34, 33, 20, 7, 0][(nth / 40_000) as usize]);
    })
    .with_state()
    .weight(3),
    entry(0x5b, "pitch_set", &[U8s(4), U8s(4)], STATE, |given, registers, answer| {
        let (rate, level) = (given.u8s(), given.u8s());
        let number = match () {
            _ if registers.envelope.0.stage > 3 => 9,
            _ if !fit(&rate) || !fit(&level) => 6,
            _ => 0,
        };
        if number == 0 {
            let mut envelope = PitchEnvelope(other(&registers.envelope.0));
            envelope.set(&rate, &level);
            registers.envelope.0 = other(&envelope.0);
        }
        answer.name("number").u8(number);
        forms::envelope(answer, &mut registers.envelope.0);
    })
    .drawn(rates_and_levels)
    .every(SETS, every_set)
    .with_state()
    .weight(3),
    entry(0x5c, "envelope_render", &[Bool, Bool, F32, F32, F32], RENDER, |given, registers, answer| {
        let (reshape, gate, rate, ad_scale, release_scale) =
            (given.bool(), given.bool(), given.f32(), given.f32(), given.f32());
        let number = stage(registers);
        let envelope = &mut registers.envelope.0;
        let mut value = 0.0;
        if number == 0 && reshape {
            value = envelope.render(gate, rate, ad_scale, release_scale);
        } else if number == 0 {
            let mut pitch: Envelope<4, false> = other(envelope);
            value = pitch.render(gate, rate, ad_scale, release_scale);
            *envelope = other(&pitch);
        }
        answer.name("number").u8(number);
        answer.name("value").f32(value);
        forms::envelope(answer, envelope);
    })
    .drawn(renders)
    .every(1 << 19, |_, draw| renders(draw))
    .with_state()
    .weight(24),
    entry(0x5d, "render_at_sample", &[Bool, F32, F32], "u8 number, f32", |given, registers, answer| {
        let (reshape, t, gate_duration) = (given.bool(), given.f32(), given.f32());
        let number = stage(registers);
        let envelope = &registers.envelope.0;
        let value = match number {
            0 if reshape => envelope.render_at_sample(t, gate_duration),
            0 => other::<true, false>(envelope).render_at_sample(t, gate_duration),
            _ => 0.0,
        };
        answer.name("number").u8(number);
        answer.name("value").f32(value);
    })
    .drawn(scrubs)
    .every(1 << 19, every_scrub)
    .with_state(),
    entry(0x5e, "envelope_value", &[Bool, U32, F32, F32], "u8 number, f32", |given, registers, answer| {
        let (reshape, asked, phase, start_level) = (given.bool(), given.usize(), given.f32(), given.f32());
        let number = match stage(registers) {
            0 if asked > 3 => 6,
            number => number,
        };
        let envelope = &registers.envelope.0;
        let value = match number {
            0 if reshape => envelope.value(asked, phase, start_level),
            0 => other::<true, false>(envelope).value(asked, phase, start_level),
            _ => 0.0,
        };
        answer.name("number").u8(number);
        answer.name("value").f32(value);
    })
    .drawn(|draw| {
        let reshape = draw.below(2) as u8;
        draw.u8(reshape);
        let stage = if draw.one_in(8) { draw.any_u32() } else { draw.below(4) };
        draw.u32(stage);
        let (phase, start) = (float(draw), float(draw));
        draw.f32(phase);
        draw.f32(start);
    })
    .with_state()
    .weight(4),
    entry(0x74, "envelope_set", &[F32s(4), F32s(4)], STATE, |given, registers, answer| {
        let (increment, level) = (given.f32s(), given.f32s());
        let number = stage(registers);
        if number == 0 {
            registers.envelope.0.set(&increment, &level);
        }
        answer.name("number").u8(number);
        forms::envelope(answer, &mut registers.envelope.0);
    })
    .drawn(|draw| {
        let wild = draw.one_in(3);
        for place in 2..10 {
            let x = own(draw, place, wild);
            draw.f32(x);
        }
    })
    .with_state()
    .weight(2),
    entry(0x75, "current_value", &[Bool], "u8 number, f32", |given, registers, answer| {
        let reshape = given.bool();
        let number = stage(registers);
        let envelope = &registers.envelope.0;
        let value = match number {
            0 if reshape => envelope.current_value(),
            0 => other::<true, false>(envelope).current_value(),
            _ => 0.0,
        };
        answer.name("number").u8(number);
        answer.name("value").f32(value);
    })
    .every(2, |nth, draw| draw.u8(nth as u8))
    .with_state()
    .weight(4),
];

const RENDER: &str = "u8 number, f32, the envelope; the bools are: an operator's, gate";

/// The same state as the other kind of envelope.
fn other<const A: bool, const B: bool>(x: &Envelope<4, A>) -> Envelope<4, B> {
    Envelope { stage: x.stage, phase: x.phase, start: x.start, increment: x.increment, level: x.level, scale: x.scale }
}

fn stage(registers: &Registers) -> u8 {
    if registers.envelope.0.stage > 3 { 9 } else { 0 }
}

fn fit(numbers: &[u8; 4]) -> bool {
    numbers.iter().all(|number| *number <= 99)
}

/// Scales of envelopes at several sample rates, as a voice makes them.
const SCALES: [f32; 6] =
    [1.0, 44_100.0 / 8_000.0, 44_100.0 / 48_000.0, 44_100.0 / 96_000.0, 44_100.0 / 192_000.0, 24.0];

fn scale(draw: &mut Draw) -> f32 {
    if draw.one_in(4) { float(draw) } else { draw.one_of(&SCALES) }
}

/// A float as an envelope has it: of its own range, at the numbers that are compared with, or any.
fn float(draw: &mut Draw) -> f32 {
    let test = draw.one_of(&[-100.0, 6.7, 0.0, -0.0, 0.5, 1.0, 2.5, -1.0]);
    match draw.below(8) {
        0 => draw.any_f32(),
        1 => test,
        2 => draw.near(test),
        3 => draw.unit() * 32.0 - 16.0,
        4 => draw.unit() * 0.01,
        _ => draw.unit(),
    }
}

/// A state: mostly as after some calls, now and then with any float in any place, or a stage above 3.
fn states(draw: &mut Draw) {
    let stage = if draw.one_in(12) { draw.any_u32() } else { draw.below(4) };
    draw.u32(stage);
    let wild = draw.one_in(3);
    for place in 0..11 {
        let x = own(draw, place, wild);
        draw.f32(x);
    }
}

/// An envelope's own float by its place in the state: phase, start, increments, levels, scale.
fn own(draw: &mut Draw, place: usize, wild: bool) -> f32 {
    match place {
        _ if wild => float(draw),
        1 if draw.one_in(2) => -100.0,
        2..=5 => draw.unit() * draw.one_of(&[1.0, 0.1, 0.001, 0.2]),
        6..=9 => draw.unit() * draw.one_of(&[1.0, 8.0, 16.0]),
        10 => scale(draw),
        _ => draw.unit(),
    }
}

/// Fields, often equal ones beside each other, so that plateaus come.
fn rates_and_levels(draw: &mut Draw) {
    for _ in 0..4 {
        let rate = if draw.one_in(16) { draw.field_or_past(99) } else { draw.field(99) };
        draw.u8(rate);
    }
    let mut level = draw.field(99);
    for _ in 0..4 {
        level = match draw.below(16) {
            0 => draw.field_or_past(99),
            1..=5 => level,
            _ => draw.field(99),
        };
        draw.u8(level);
    }
}

/// All rates times all levels in each stage, with eight sets of numbers in the other stages.
const SETS: u64 = 8 * 40_000;

fn every_set(nth: u64, draw: &mut Draw) {
    let (rate, level, stage) = ((nth % 100) as u8, (nth / 100 % 100) as u8, (nth / 10_000 % 4) as usize);
    let mut rates = [99, 50, 20, 75];
    let before = [0, level, 99, 50, 30, 25, 99, 10][(nth / 40_000) as usize];
    let mut levels = [99, before, 70, 0];
    (rates[stage], levels[stage], levels[(stage + 3) % 4]) = (rate, level, before);
    rates.into_iter().chain(levels).for_each(|x| draw.u8(x));
}

/// Gates that stay for a while, and numbers as a voice gives them, or any.
fn renders(draw: &mut Draw) {
    let reshape = !draw.one_in(3);
    let gate = !draw.one_in(5);
    draw.u8(reshape as u8);
    draw.u8(gate as u8);
    let rate = if draw.one_in(8) { float(draw) } else { draw.one_of(&[1.0, 24.0, 64.0, 128.0, 1024.0]) };
    draw.f32(rate);
    for _ in 0..2 {
        let scale = if draw.one_in(8) { float(draw) } else { draw.unit() * 4.0 };
        draw.f32(scale);
    }
}

/// A time and a gate's duration: near each other, far apart, or any.
fn scrubs(draw: &mut Draw) {
    let reshape = draw.below(2) as u8;
    draw.u8(reshape);
    let span = draw.one_of(&[1.0, 10.0, 1000.0, 1e5, 1e7]);
    let gate = if draw.one_in(8) { float(draw) } else { draw.unit() * span };
    let t = match draw.below(8) {
        0 => float(draw),
        1 => draw.near(gate),
        2 => gate + draw.unit() * 10.0,
        _ => draw.unit() * span * 2.0,
    };
    draw.f32(t);
    draw.f32(gate);
}

/// Times over the whole gate and past it, for gates of several lengths.
fn every_scrub(nth: u64, draw: &mut Draw) {
    let gate = [1.0, 30.0, 700.0, 3000.0, 2e4, 1e5, 1e6, 3e7][(nth >> 16) as usize];
    draw.u8((nth % 2) as u8);
    draw.f32((nth >> 1 & 0x7fff) as f32 / 16_384.0 * gate);
    draw.f32(gate);
}
