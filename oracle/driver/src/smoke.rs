//! A quick look, after each assembly: the table of entries is sound, and the Rust is all there and reachable.

use crate::entry::registers::Registers;
use crate::entry::rust::{mark, put_row, step, with_quarters, with_table};
use crate::groups::{pieces, single, transpose};
use crate::script::generate::Generator;
use crate::table;
use crate::wire::answer::Answer;
use crate::wire::arguments::Arguments;
use crate::wire::forms;
use crate::wire::kind::split;
use plaits::fm::algorithms::{Algorithms, OPCODES_4_8, OPCODES_6_32};
use plaits::fm::dx_units::{
    LUT_AMP_MOD_SENSITIVITY, LUT_COARSE, LUT_CUBE_ROOT, LUT_PITCH_MOD_SENSITIVITY, MIN_LFO_FREQUENCY,
    operator_envelope_increment, operator_level, pow_2_fast,
};
use plaits::fm::envelope::{OperatorEnvelope, PitchEnvelope};
use plaits::fm::patch::Patch;
use plaits::fm::voice::{Voice, VoiceParameters};
use plaits::oscillator::sine_oscillator::{sine, sine_pm};
use plaits::resources::sine::LUT_SINE;
use plaits::utils::random;
use plaits::utils::units::{LUT_PITCH_RATIO_HIGH, LUT_PITCH_RATIO_LOW, semitones_to_ratio_safe};
use std::hint::black_box;

type Check = (&'static str, fn() -> bool);

pub fn smoke() -> bool {
    let checks: [Check; 14] = [
        ("entries take what is drawn for them", entries_fit),
        ("states read as they are written", forms_fit),
        ("conversions", conversions),
        ("the ratio from semitones", ratios),
        ("tables", tables),
        ("the generator's number", generator),
        ("rows put in", rows),
        ("an LFO and two envelopes", lfo_and_envelopes),
        ("two voices' blocks", voices),
        ("each mark in drawn blocks", marks),
        ("a voice that transposes", transposed),
        ("a patch by hand in both forms", single::agrees_with_hand),
        ("a dump by hand in pieces", pieces::agrees_with_hand),
        ("dumps in pieces and whole", || pieces::agrees_with_whole(500)),
    ];
    let failed: Vec<&str> = checks.iter().filter(|(_, check)| !check()).map(|(name, _)| *name).collect();
    failed.iter().for_each(|name| eprintln!("smoke: {name}: not as expected"));
    failed.is_empty()
}

/// What is drawn for an entry is what its kinds say, and the entry reads all of it.
fn entries_fit() -> bool {
    let mut registers = Registers::new();
    table::by_number().iter().flatten().all(|entry| {
        let mut script = Generator::new(7, &[entry]);
        (0..100).all(|_| {
            let call = script.next().1;
            let bytes: usize = split(entry.arguments, &call[1..]).map(|(_, argument)| argument.len()).sum();
            let mut arguments = Arguments(&call[1..]);
            (entry.answer)(&mut arguments, &mut registers, &mut Answer::default());
            bytes == call.len() - 1 && arguments.0.is_empty()
        })
    })
}

/// A patch, an envelope and an LFO are written as they were read.
fn forms_fit() -> bool {
    let Registers { mut patch, envelope: OperatorEnvelope(mut envelope), mut lfo, .. } = Registers::new();
    let mut bytes: Vec<u8> = (1..=250).collect();
    bytes[244..246].copy_from_slice(&[5, 1]); // the LFO's waveform and bool
    let mut arguments = Arguments(&bytes);
    let mut answer = Answer::default();
    forms::patch(&mut arguments, &mut patch);
    forms::patch(&mut answer, &mut patch);
    forms::envelope(&mut arguments, &mut envelope);
    forms::envelope(&mut answer, &mut envelope);
    forms::lfo(&mut arguments, &mut lfo);
    forms::lfo(&mut answer, &mut lfo);
    arguments.0.is_empty() && answer.bytes == bytes && patch.op[5].detune == 126
}

/// Cases P1 to P11 of the crate `cases_proved`, with the marks of P8 to P11.
fn conversions() -> bool {
    let levels = [0, 14, 15, 20, 99].map(operator_level) == [0, 38, 42, 48, 127];
    let rates = [0, 99].map(operator_envelope_increment) == [2f32.powi(-20), 0.0546875];
    let frequencies = [0.5, 0.75, -0.25, f32::NAN];
    let steps = frequencies.map(|x| step(black_box(x))) == [1 << 31, 1 << 31, 0, 1 << 31];
    let marks = frequencies.map(mark) == [0, 1, 2, 1] && [0.0, -0.0, 1e-30].map(mark) == [0; 3];
    let ratio = (semitones_to_ratio_safe(black_box(240.0)) / 1_048_576.0 - 1.0).abs() < 1e-3;
    levels && rates && steps && marks && ratio && pow_2_fast(black_box(3.0), 2) == 8.0
}

/// Within a thousandth of the power of two, from −240 to 240 in steps of a 256th.
fn ratios() -> bool {
    (-240 * 256..=240 * 256).all(|step| {
        let semitones = step as f32 / 256.0;
        let exact = (semitones as f64 / 12.0).exp2();
        (semitones_to_ratio_safe(black_box(semitones)) as f64 / exact - 1.0).abs() < 1e-3
    })
}

fn tables() -> bool {
    let lengths = [LUT_SINE.len(), LUT_PITCH_RATIO_HIGH.len(), LUT_PITCH_RATIO_LOW.len(), LUT_CUBE_ROOT.len()];
    let small = [LUT_COARSE.len(), LUT_AMP_MOD_SENSITIVITY.len(), LUT_PITCH_MOD_SENSITIVITY.len()];
    let sines = sine(black_box(0.25)) == 1.0 && sine_pm(black_box(1 << 30), 0.0) == 1.0;
    lengths == [641, 256, 256, 17] && small == [32, 4, 8] && MIN_LFO_FREQUENCY > 0.0 && sines
}

fn generator() -> bool {
    random::seed(1);
    random::state() == 1 && random::get_word() == 1_664_525 + 1_013_904_223 && random::state() == 1_015_568_748
}

/// A row of four put in, one of six with a chain of three, and a built-in row of each table.
fn rows() -> bool {
    let mut registers = Registers::new();
    put_row(&mut registers.rows_4, 31, [0x71, 0x14, 0x01, 0x14]);
    put_row(&mut registers.rows_6, 0, [0x31, 0x11, 0x54, 0x01, 0x11, 0x14]);
    let four = registers.rows_4.render_call[31].clone().map(|call| (call.n, call.modulation_source, call.additive));
    let six = registers.rows_6.render_call[0].clone().map(|call| call.n);
    four == [(1, 0, false), (1, -2, true), (1, -1, false), (1, -2, true)]
        && six == [3, 0, 0, 1, 1, 1]
        && registers.rows_4.opcodes[7] == OPCODES_4_8[7]
        && registers.rows_6.opcodes[31] == OPCODES_6_32[31]
}

/// A packed patch that sounds: all operators at full level, in algorithm 1 (of four) or 32 (of six).
fn packed(algorithm: u8) -> [u8; 128] {
    let mut bytes = [0; 128];
    for op in bytes.chunks_exact_mut(17).take(6) {
        op[..8].copy_from_slice(&[99, 99, 99, 99, 99, 99, 99, 0]);
        op[12] = 7 << 3;
        op[14..].copy_from_slice(&[99, 2, 0]);
    }
    bytes[102..110].copy_from_slice(&[99, 99, 99, 99, 50, 50, 50, 50]);
    bytes[110] = algorithm;
    bytes[116] = 4 << 1;
    bytes
}

fn lfo_and_envelopes() -> bool {
    let mut registers = Registers::new();
    registers.patch.unpack(&packed(31));
    let Registers { patch, lfo, envelope: operator_envelope, .. } = &mut registers;
    let mut pitch_envelope = PitchEnvelope::new();
    lfo.init(48_000.0);
    lfo.set(&patch.modulations);
    lfo.step(24.0);
    operator_envelope.0.init(1.0);
    operator_envelope.set(&patch.op[0].envelope.rate, &patch.op[0].envelope.level, 127);
    pitch_envelope.0.init(1.0);
    pitch_envelope.set(&patch.pitch_envelope.rate, &patch.pitch_envelope.level);
    let level = operator_envelope.0.render(true, 1000.0, 1.0, 1.0);
    let scrubbed = operator_envelope.0.render_at_sample(1e6, 1e9);
    lfo.phase > 0.0 && lfo.value != 0.5 && level > 0.0 && scrubbed == level && pitch_envelope.0.level == [0.0; 4]
}

/// A drawn script of voices has blocks with each of the three marks, and one with all of them.
fn marks() -> bool {
    let entries: Vec<_> = table::by_number().into_iter().flatten().filter(|entry| entry.number >> 4 == 8).collect();
    let (mut registers, mut script) = (Registers::new(), Generator::new(11, &entries));
    let mut met = [false; 8];
    for _ in 0..20_000 {
        let (entry, call) = script.next();
        let mut answer = Answer::default();
        (entry.answer)(&mut Arguments(&call[1..]), &mut registers, &mut answer);
        if (0x87..=0x89).contains(&entry.number) {
            met[answer.bytes[1..7].iter().fold(0, |set, mark| set | 1 << mark)] = true;
        }
    }
    met[1] && met[3] && met[5] && met[7]
}

/// With transpose 36 a block at note 60 is the one at note 72 with the switch off, but for the switch; with transpose
/// 12 note 11 is refused.
fn transposed() -> bool {
    let rendered = |on: u8, shift: u8, note: f32| {
        let parameters = [note, 0.8, 0.5, 0.5, 0.0, 0.0].map(f32::to_le_bytes).concat();
        let block = [&[0, 1], &parameters[..], &[96, 0, 0, 0, 1, 0, 0, 0]].concat();
        let start = [&6u32.to_le_bytes()[..], &48_000f32.to_le_bytes()].concat();
        let patch = [&transpose::patch(shift)[..], &[0]].concat();
        let (mut registers, mut answer) = (Registers::new(), Answer::default());
        for (number, call) in [(0x80, &start), (0x82, &patch), (0x8a, &vec![on]), (0x88, &block), (0x88, &block)] {
            answer = Answer::default();
            let entry = table::by_number()[number].expect("an entry of the voice");
            (entry.answer)(&mut Arguments(call), &mut registers, &mut answer);
        }
        answer.bytes
    };
    let (mut up, plain, low) = (rendered(1, 36, 60.0), rendered(0, 36, 72.0), rendered(1, 12, 11.0));
    let on = up.pop() == Some(1);
    up.push(0);
    on && up == plain && plain[0] == 0 && plain != rendered(0, 36, 60.0) && low[0] == 7
}

/// A voice of four with a row put in, and one of six with a built-in row.
fn voices() -> bool {
    let mut registers = Registers::new();
    let Registers { rows_4, rows_6, voice_4, voice_6, .. } = &mut registers;
    put_row(rows_4, 9, [0x71, 0x14, 0x01, 0x14]);
    rows_6.init();
    sounds(voice_4, rows_4, 9) && sounds(voice_6, rows_6, 31)
}

/// The first block of a patch is blank, the second one sounds.
fn sounds<const N: usize>(voice: &mut Voice<'static, N, 32>, rows: &Algorithms<N, 32>, algorithm: u8) -> bool {
    let mut patch = Patch::new();
    patch.unpack(&packed(algorithm));
    let parameters = VoiceParameters { gate: true, note: 60.0, velocity: 1.0, ..VoiceParameters::new() };
    with_table(voice, rows, |voice, rows| voice.init(rows, 48_000.0));
    voice.set_patch(Some(patch));
    let mut block = [0.0; 4 * 24];
    let heard = [(); 2].map(|()| {
        with_table(voice, rows, |voice, _| with_quarters(&mut block, |quarters| voice.render(&parameters, quarters)));
        block[..24].iter().any(|x| *x != 0.0)
    });
    heard == [false, true] && block.iter().all(|x| x.is_finite()) && voice.gate
}
