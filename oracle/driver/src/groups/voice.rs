//! The voice. The Rust's voice renders, with the row that was set put into its table. What it has no words for (the
//! number of operators, the row, the plan, the switch) is kept beside it, and every refusal is decided here from the
//! rules (docs/RULES.md): a block gets 9, 8, 7, a patch 9, 6, 2, 3, 4, starting 2, 5, and taking the patch out, setting
//! up, setting the switch and asking for the patch 9. A voice that transposes is the Rust's, given the shifted note.

use crate::entry::draw::Draw;
use crate::entry::registers::Registers;
use crate::entry::rust::{mark, put_row, step, with_quarters, with_table};
use crate::entry::voice::{SIZE, State};
use crate::entry::{Entry, entry};
use crate::groups::algorithms::{self, counted, planned, tabled};
use crate::groups::patch::{self, check};
use crate::groups::transpose;
use crate::wire::answer::{Answer, NAN};
use crate::wire::arguments::Arguments;
use crate::wire::forms;
use crate::wire::kind::Kind::{Bool, Bytes, F32, F32s, Floats, U8, U8s, U32};
use plaits::fm::algorithms::{Algorithms, OPCODES_4_8, OPCODES_6_32};
use plaits::fm::dx_units::pow_2_fast;
use plaits::fm::patch::Patch;
use plaits::fm::voice::{Voice, VoiceParameters};
use plaits::utils::units::semitones_to_ratio_safe;

const STATE: &str = "u8 number, the voice, 667 bytes";
const LOADED: &str = "u8 number, u8 operator named, the voice";
const WHOLE: &str = "u8 number, 6 × u8 marks, floats the block, the voice";
const DIGEST: &str = "u8 number, 6 × u8 marks, u64 digest of the block and the voice";

pub const ENTRIES: &[Entry] = &[
    entry(0x80, "voice_init", &[U32, F32], STATE, |given, registers, answer| {
        let (operators, sample_rate) = (given.usize(), given.f32());
        let number = match () {
            _ if !counted(operators) => 2,
            _ if !(8_000.0..=192_000.0).contains(&sample_rate) => 5,
            _ => 0,
        };
        match number {
            0 => start(registers, operators, sample_rate),
            _ => registers.voice = State::fresh(0.0),
        }
        answer.name("number").u8(number);
        registers.voice.form(answer);
    })
    .drawn(starts)
    .with_state()
    .weight(2),
    entry(0x81, "voice_set_patch", &[U8s(156), Bytes], LOADED, |given, registers, answer| {
        let mut patch = Patch::new();
        forms::patch(given, &mut patch);
        let table = given.bytes();
        set(registers, answer, patch, &table);
    })
    .drawn(|draw| {
        patch::fields(draw);
        let rows = draw.one_of(&[0, 1, 8, 16, 31, 32, 32, 32, 32, 32, 33]);
        let table: Vec<u8> = match draw.below(8) {
            0 => (0..rows * 6 + 1).map(|_| draw.any_u8()).collect(),
            1 => (0..rows).flat_map(|_| algorithms::row(draw, 6)).collect(),
            2 => (0..rows).flat_map(|_| algorithms::row(draw, 4)).collect(),
            3 | 4 => OPCODES_4_8.iter().cycle().take(rows).flatten().copied().collect(),
            _ => OPCODES_6_32.iter().cycle().take(rows).flatten().copied().collect(),
        };
        draw.bytes(&table);
    })
    .with_state()
    .weight(3),
    entry(
        0x82,
        "voice_set_packed",
        &[U8s(128), U8],
        "as 81; u8 is 4, 6 or 0: a stored table",
        |given, registers, answer| {
            let mut patch = Patch::new();
            patch.unpack(&given.u8s::<128>());
            let table = stored(&registers.voice, given.u8());
            set(registers, answer, patch, &table);
        },
    )
    .drawn(|draw| {
        let algorithm = match draw.below(8) {
            0 => draw.one_of(&CHAINED),
            1..=4 => draw.below(8) as u8,
            _ => draw.field(31),
        };
        packed(draw, algorithm);
        let table = if draw.one_in(16) { draw.one_of(&[4, 6, 5]) } else { 0 };
        draw.u8(table);
    })
    .with_state()
    .weight(4),
    entry(
        0x83,
        "voice_set_row",
        &[U8s(128), U8s(6)],
        "as 81; the row is a table of its own",
        |given, registers, answer| {
            let mut patch = Patch::new();
            patch.unpack(&given.u8s::<128>());
            let row = given.u8s::<6>();
            let table = if registers.voice.operators <= 6 { &row[..registers.voice.operators] } else { &[] };
            set(registers, answer, patch, table);
        },
    )
    .drawn(|draw| {
        let algorithm = if draw.one_in(16) { draw.below(4) as u8 } else { 0 };
        packed(draw, algorithm);
        let length = draw.one_of(&[4, 6]);
        let mut row = match draw.below(8) {
            0 => OPCODES_6_32[draw.one_of(&CHAINED) as usize].to_vec(),
            1 => draw.one_of(&OPCODES_4_8).to_vec(),
            _ => algorithms::row(draw, length),
        };
        row.resize(6, 0);
        row.into_iter().for_each(|opcode| draw.u8(opcode));
    })
    .with_state()
    .weight(4),
    entry(0x84, "voice_take_patch", &[], STATE, |_, registers, answer| {
        let number = take(registers);
        answer.name("number").u8(number);
        registers.voice.form(answer);
    })
    .with_state()
    .weight(1),
    entry(0x85, "voice", &[], "the voice", |_, registers, answer| registers.voice.form(answer)).with_state().weight(1),
    entry(0x86, "voice_bent", &[U32, U8, U8, Bool], BENT, |given, registers, answer| {
        let (place, byte, way, keep) = (given.usize() % SIZE, given.u8(), given.u8(), given.bool());
        let before = registers.voice.clone();
        registers.voice = before.bent(place, byte);
        let number = match way {
            0 => {
                let (mut patch, table) = (Patch::new(), stored(&registers.voice, 0));
                patch.unpack(&[0; 128]);
                load(registers, patch, &table).0
            }
            1 => take(registers),
            _ => render(registers, &TRIED, &mut [0.0; 16]).number,
        };
        answer.name("number").u8(number);
        registers.voice.form(answer);
        if !keep {
            registers.voice = before;
        }
    })
    .drawn(bends)
    .with_state()
    .weight(4),
    entry(0x87, "voice_render", &[Bool, Bool, F32s(6), Floats], WHOLE, |given, registers, answer| {
        let (parameters, mut block) = (parameters(given), given.floats());
        let told = render(registers, &parameters, &mut block);
        whole(answer, told, &block, &mut registers.voice);
    })
    .drawn(|draw| {
        parameters_drawn(draw);
        let size = if draw.one_in(16) { size(draw) } else { 4 * draw.below(25) };
        let wild = draw.one_in(4);
        let block: Vec<f32> = (0..size).map(|_| if wild { draw.any_f32() } else { draw.unit() - 0.5 }).collect();
        draw.floats(&block);
    })
    .with_state()
    .weight(3),
    entry(0x88, "voice_render_seeded", &[Bool, Bool, F32s(6), U32, U32], WHOLE, |given, registers, answer| {
        let (parameters, mut block) = (parameters(given), seeded(given));
        let told = render(registers, &parameters, &mut block);
        whole(answer, told, &block, &mut registers.voice);
    })
    .drawn(seeds)
    .with_state()
    .weight(6),
    entry(0x89, "voice_render_digest", &[Bool, Bool, F32s(6), U32, U32], DIGEST, |given, registers, answer| {
        let (parameters, mut block) = (parameters(given), seeded(given));
        let told = render(registers, &parameters, &mut block);
        told.form(answer);
        answer.name("digest").u64(digest(&block, &mut registers.voice));
    })
    .drawn(seeds)
    .with_state()
    .weight(64),
    entry(0x8a, "voice_transposing", &[Bool], STATE, |given, registers, answer| {
        let on = given.bool();
        let number = state(registers);
        if number == 0 {
            (registers.voice.transposing, registers.voice.dirty) = (on, true);
        }
        answer.name("number").u8(number);
        registers.voice.form(answer);
    })
    .drawn(|draw| {
        let on = draw.one_of(&[0, 0, 1, 1, 1, 1, 2, 255]);
        draw.u8(on);
    })
    .every(transpose::CALLS, transpose::every)
    .with_state()
    .weight(3),
    entry(0x8b, "voice_setup", &[], "u8 number, bool it was dirty, the voice", |_, registers, answer| {
        let (number, dirty) = set_up(registers);
        answer.name("number").u8(number);
        answer.name("was dirty").bool(dirty);
        registers.voice.form(answer);
    })
    .with_state()
    .weight(2),
    entry(0x8c, "voice_patch", &[], "u8 number, bool it has one, the patch", |_, registers, answer| {
        let (number, patch) = patch_of(registers);
        answer.name("number").u8(number);
        answer.name("has a patch").bool(patch.is_some());
        forms::patch(answer, &mut patch.unwrap_or_else(Patch::new));
    })
    .with_state()
    .weight(1),
];

const BENT: &str =
    "u8 number, the voice; u32 a byte's place in it, u8 the byte, u8 0 set, 1 take out, else a block, bool keep";

/// The rows of six operators that have feedback chains of three and two.
const CHAINED: [u8; 2] = [3, 5];

fn whole(answer: &mut Answer, told: Told, block: &[f32], state: &mut State) {
    told.form(answer);
    answer.name("block").floats(block);
    state.form(answer);
}

/// FNV-1a with 64 bits, a step for the bits of each sample and then one for each byte of the voice.
fn digest(block: &[f32], state: &mut State) -> u64 {
    let bits = block.iter().map(|x| if x.is_nan() { NAN } else { x.to_bits() } as u64);
    let voice = state.image();
    let steps = bits.chain(voice.iter().map(|byte| *byte as u64));
    steps.fold(0xcbf2_9ce4_8422_2325, |sum: u64, x| (sum ^ x).wrapping_mul(0x0000_0100_0000_01b3))
}

/// Copies a state into the Rust's voice, does some work there with the row's table, and copies back.
fn with_rust<const N: usize>(
    stored: &mut Voice<'static, N, 32>,
    rows: &mut Algorithms<N, 32>,
    state: &mut State,
    work: impl for<'a> FnOnce(&mut Voice<'a, N, 32>, &'a Algorithms<N, 32>),
) {
    state.fill(stored);
    if state.has_patch {
        put_row(rows, state.patch.algorithm as usize, std::array::from_fn(|i| state.row[i]));
    }
    with_table(stored, rows, work);
    state.read_back(stored);
}

/// The same for the number of operators that the stored voice has.
macro_rules! on_rust {
    ($registers:expr, |$voice:ident, $rows:pat_param| $work:expr) => {
        match $registers.voice.operators {
            4 => {
                with_rust(&mut $registers.voice_4, &mut $registers.rows_4, &mut $registers.voice, |$voice, $rows| $work)
            }
            _ => {
                with_rust(&mut $registers.voice_6, &mut $registers.rows_6, &mut $registers.voice, |$voice, $rows| $work)
            }
        }
    };
}

/// What stands behind the last operator starts as the others do.
fn start(registers: &mut Registers, operators: usize, sample_rate: f32) {
    registers.voice = State { operators, ..State::fresh(44_100.0 * (1.0 / sample_rate)) };
    on_rust!(registers, |voice, rows| voice.init(rows, sample_rate));
}

/// 9 for a state that no call hands back.
fn state(registers: &mut Registers) -> u8 {
    let voice = registers.voice.clone();
    let stages =
        voice.operator_envelope.iter().all(|envelope| envelope.0.stage <= 3) && voice.pitch_envelope.0.stage <= 3;
    let sound = match voice.has_patch {
        _ if !counted(voice.operators) || !stages => false,
        false => voice.dirty,
        true => {
            check(&voice.patch) == 0
                && plan(registers, voice.operators, &voice.row[..voice.operators]) == (0, 0, voice.plan)
        }
    };
    if sound { 0 } else { 9 }
}

/// A row's number, the operator named, and its plan.
fn plan(registers: &mut Registers, operators: usize, row: &[u8]) -> (u8, u8, [u8; 31]) {
    let planned = planned(registers, operators, row);
    (planned.number, planned.at, planned.bytes())
}

fn set(registers: &mut Registers, answer: &mut Answer, patch: Patch, table: &[u8]) {
    let (number, at) = load(registers, patch, table);
    answer.name("number").u8(number);
    answer.name("operator").u8(at);
    registers.voice.form(answer);
}

/// Sets a patch, or says the number and the operator of the refusal.
fn load(registers: &mut Registers, patch: Patch, table: &[u8]) -> (u8, u8) {
    let (operators, algorithm) = (registers.voice.operators, patch.algorithm as usize);
    match state(registers) {
        0 if check(&patch) != 0 => return (6, 0),
        0 if !tabled(operators, table, algorithm) => return (2, 0),
        0 => (),
        number => return (number, 0),
    }
    let opcodes = &table[algorithm * operators..][..operators];
    let (number, at, plan) = plan(registers, operators, opcodes);
    if number != 0 {
        return (number, at);
    }
    on_rust!(registers, |voice, _| voice.set_patch(Some(patch)));
    registers.voice.row = [0; 6];
    registers.voice.row[..operators].copy_from_slice(opcodes);
    registers.voice.plan = plan;
    (0, 0)
}

fn take(registers: &mut Registers) -> u8 {
    let number = state(registers);
    if number == 0 {
        on_rust!(registers, |voice, _| voice.set_patch(None));
        (registers.voice.patch, registers.voice.row, registers.voice.plan) = (Patch::new(), [0; 6], [0; 31]);
    }
    number
}

/// Sets a dirty voice up, and says whether it was dirty.
fn set_up(registers: &mut Registers) -> (u8, bool) {
    let number = state(registers);
    let mut dirty = false;
    if number == 0 {
        on_rust!(registers, |voice, _| dirty = voice.setup());
    }
    (number, dirty)
}

/// The patch that the voice has.
fn patch_of(registers: &mut Registers) -> (u8, Option<Patch>) {
    let number = state(registers);
    let mut patch = None;
    if number == 0 {
        on_rust!(registers, |voice, _| patch = voice.patch().cloned());
    }
    (number, patch)
}

/// The Rust's table for so many operators, 0 for the voice's own number; an empty one for another number.
fn stored(voice: &State, which: u8) -> Vec<u8> {
    match if which == 0 { voice.operators } else { which as usize } {
        4 => OPCODES_4_8.concat(),
        6 => OPCODES_6_32.concat(),
        _ => Vec::new(),
    }
}

/// What a block's answer has besides its samples and the voice.
struct Told {
    number: u8,
    marks: [u8; 6],
}

impl Told {
    fn form(&self, answer: &mut Answer) {
        answer.name("number").u8(self.number);
        answer.name("marks").u8s(&self.marks);
    }
}

/// The frequencies that a clean voice gives its operators in a block. The Rust keeps them to itself; here they come
/// from its envelope, its ratio and its tables.
fn frequencies<const N: usize>(voice: &Voice<'_, N, 32>, asked: &VoiceParameters, samples: usize) -> [f32; N] {
    let (mut envelope, control) = (voice.pitch_envelope.clone().0, asked.envelope_control);
    let gate_duration = 1.5 * voice.sample_rate;
    let bend = if asked.sustain {
        envelope.render_at_sample(gate_duration * control, gate_duration)
    } else {
        let fall = -f32::abs(control - 0.3) * 8.0;
        envelope.render(asked.gate, samples as f32, pow_2_fast((0.5 - control) * 8.0, 1), pow_2_fast(fall, 1))
    };
    let semitones = asked.note - 9.0 + (bend + asked.pitch_mod) * 12.0;
    let f0 = voice.a0 * 0.25 * semitones_to_ratio_safe(semitones);
    voice.ratios.map(|ratio| ratio * if ratio < 0.0 { -voice.one_hz } else { f0 })
}

/// Renders a block and gives the marks of its frequencies, which must be those that moved the phases. A blank or an
/// empty block, and the operators that a voice of four lacks, are as asked.
fn marked<const N: usize>(voice: &mut Voice<'_, N, 32>, asked: &VoiceParameters, block: &mut [f32]) -> [u8; 6] {
    let (samples, mut marks) = (block.len() / 4, [0; 6]);
    let blank = voice.dirty;
    let frequencies = frequencies(voice, asked, samples);
    let anew = asked.gate && !voice.gate && voice.patch.as_ref().is_some_and(|patch| patch.reset_phase != 0);
    let starts: [u32; N] = std::array::from_fn(|i| if anew { 0 } else { voice.operator[i].phase });
    with_quarters(block, |quarters| voice.render(asked, quarters));
    if blank || samples == 0 {
        return marks;
    }
    for i in 0..N {
        let moved = voice.operator[i].phase.wrapping_sub(starts[i]);
        let expected = step(frequencies[i]).wrapping_mul(samples as u32);
        assert_eq!(moved, expected, "operator {i} does not have the frequency {} in the Rust", frequencies[i]);
        marks[i] = mark(frequencies[i]);
    }
    marks
}

/// The note that a voice plays: with its switch on and a patch, the note plus the whole number transpose minus 24.
fn played(voice: &State, note: f32) -> f32 {
    if voice.transposing && voice.has_patch { note + (voice.patch.transpose as i32 - 24) as f32 } else { note }
}

/// Renders a block, or says why not.
fn render(registers: &mut Registers, asked: &VoiceParameters, block: &mut [f32]) -> Told {
    let units = [asked.velocity, asked.brightness, asked.envelope_control, asked.amp_mod];
    let note = played(&registers.voice, asked.note);
    let number = match state(registers) {
        0 if block.len() % 4 != 0 || block.len() > 4096 => 8,
        0 if !(0.0..=127.0).contains(&asked.note) || !(-4.0..=4.0).contains(&asked.pitch_mod) => 7,
        0 if !units.iter().all(|x| (0.0..=1.0).contains(x)) => 7,
        0 if !(0.0..=127.0).contains(&note) => 7,
        number => number,
    };
    let mut marks = [0; 6];
    if number == 0 {
        let given = VoiceParameters { note, ..asked.clone() };
        on_rust!(registers, |voice, _| marks = marked(voice, &given, block));
    }
    Told { number, marks }
}

/// What a bent state is tried with: four samples at a gate.
const TRIED: VoiceParameters = VoiceParameters {
    sustain: false,
    gate: true,
    note: 60.0,
    velocity: 1.0,
    brightness: 0.5,
    envelope_control: 0.5,
    pitch_mod: 0.0,
    amp_mod: 0.0,
};

fn parameters(given: &mut Arguments) -> VoiceParameters {
    VoiceParameters {
        sustain: given.bool(),
        gate: given.bool(),
        note: given.f32(),
        velocity: given.f32(),
        brightness: given.f32(),
        envelope_control: given.f32(),
        pitch_mod: given.f32(),
        amp_mod: given.f32(),
    }
}

/// A block of so many numbers, at most 4,352: draws between −0.5 and 0.5 from a seed, zeros where it is 0.
fn seeded(given: &mut Arguments) -> Vec<f32> {
    let (size, seed) = (given.usize().min(4352), given.u32());
    let mut state = seed;
    let mut block = vec![0.0; size];
    for sample in block.iter_mut().filter(|_| seed != 0) {
        state = state.wrapping_mul(1_664_525).wrapping_add(1_013_904_223);
        *sample = (state >> 8) as f32 / 16_777_216.0 - 0.5;
    }
    block
}

fn starts(draw: &mut Draw) {
    let operators = if draw.one_in(32) { draw.any_u32() } else { draw.one_of(&[4, 6]) };
    let rate = match draw.below(32) {
        0 => draw.any_f32(),
        1 | 2 => {
            let end = draw.one_of(&[8_000.0, 192_000.0]);
            draw.near(end)
        }
        3..=9 => 8_000.0 + draw.unit() * 184_000.0,
        _ => draw.one_of(&[8_000.0, 22_050.0, 44_100.0, 48_000.0, 96_000.0, 192_000.0]),
    };
    draw.u32(operators);
    draw.f32(rate);
}

/// A packed patch: its fields in range, so that it sounds: often at full level, quick, or anything.
fn packed(draw: &mut Draw, algorithm: u8) {
    let kind = draw.below(4);
    let mut bytes: [u8; 128] = std::array::from_fn(|_| draw.below(128) as u8);
    for op in bytes.chunks_exact_mut(17).take(6).filter(|_| kind > 0) {
        op[..11].iter_mut().for_each(|byte| *byte = draw.field(99));
        if draw.one_in(2) {
            op[..4].iter_mut().for_each(|rate| *rate = 40 + draw.below(60) as u8);
        }
        if draw.one_in(2) {
            op[4..7].iter_mut().for_each(|level| *level = 70 + draw.below(30) as u8);
        }
        op[14] = if draw.one_in(2) { 60 + draw.below(40) as u8 } else { draw.field(99) };
        op[16] = draw.field(99);
    }
    if kind == 3 {
        bytes.iter_mut().for_each(|byte| *byte |= (draw.one_in(64) as u8) << 7);
    }
    bytes[110] = algorithm;
    if draw.one_in(2) {
        bytes[117] = draw.field(48);
    }
    bytes.into_iter().for_each(|byte| draw.u8(byte));
}

/// A byte of a voice that can make it one of number 9's, and another value for it. Or the highest byte of what its
/// frequencies come from, made negative, a NaN or large, which no call does: blocks behind it are held, at zero too.
fn bends(draw: &mut Draw) {
    let stage = 65 + 48 * draw.below(7);
    let (place, byte) = match draw.below(12) {
        10 | 11 => (draw.one_of(&[11, 15]), draw.one_of(&[0xb7, 0xba, 0xff, 0x7f, 0x3d, 0x3f, 0x41, 0x80])),
        0 => (draw.below(4), draw.one_of(&[0, 1, 3, 5, 7, 255])),
        1 => (stage, draw.below(8) as u8),
        2 => (stage + draw.below(4), draw.any_u8()),
        3 => (471, draw.below(2) as u8),
        4 | 5 => (472 + draw.below(156), draw.any_u8()),
        6 => (628 + draw.below(6), draw.any_u8()),
        7 => (634 + draw.below(31), draw.below(8) as u8),
        8 => (634 + draw.below(31), draw.any_u8()),
        _ => (665 + draw.below(2), draw.below(2) as u8),
    };
    let (way, odd) = (draw.below(3) as u8, place == 11 || place == 15);
    draw.u32(place);
    draw.u8(byte);
    draw.u8(if odd { 2 } else { way });
    let keep = draw.one_in(if odd { 2 } else { 32 }) as u8;
    draw.u8(keep);
}

/// A parameter: of its range, at or near an end of it, or rarely any float.
fn parameter(draw: &mut Draw, low: f32, high: f32, odd: bool) {
    let x = match draw.below(16) {
        _ if odd && draw.one_in(6) => {
            let end = draw.one_of(&[low, high, -low, -1.0, 2.0]);
            if draw.one_in(2) { draw.any_f32() } else { draw.near(end) }
        }
        0 => low,
        1 => high,
        2 => (low + high) / 2.0,
        3 => draw.one_of(&[0.3, 0.5, 0.0]),
        _ => low + draw.unit() * (high - low),
    };
    draw.f32(x);
}

fn parameters_drawn(draw: &mut Draw) {
    let sustain = draw.one_in(5) as u8;
    let gate = draw.gate() as u8;
    draw.u8(sustain);
    draw.u8(gate);
    let odd = draw.one_in(12);
    let whole = draw.below(128) as f32;
    match draw.below(8) {
        0..4 => draw.f32(whole),
        // a shifted note may end its range there
        4 => {
            let note = draw.near(whole);
            draw.f32(note)
        }
        _ => parameter(draw, 0.0, 127.0, odd),
    }
    (0..3).for_each(|_| parameter(draw, 0.0, 1.0, odd));
    parameter(draw, -4.0, 4.0, odd);
    parameter(draw, 0.0, 1.0, odd);
}

/// A block's numbers: mostly four times a short length, now and then up to 1,024 samples, or what 8 names.
fn size(draw: &mut Draw) -> u32 {
    match draw.below(32) {
        0 => draw.one_of(&[1, 2, 3, 5, 97, 4095, 4097, 4098, 4100, 4352]),
        1 => 4 * draw.below(1025),
        2 => 4 * draw.one_of(&[1023, 1024, 512, 128]),
        3 | 4 => 0,
        5..=8 => 4,
        9..=14 => 4 * 24,
        15 | 16 => 4 * 64,
        _ => 4 * draw.below(40),
    }
}

fn seeds(draw: &mut Draw) {
    parameters_drawn(draw);
    let size = size(draw);
    draw.u32(size);
    let seed = if draw.one_in(2) { 0 } else { draw.random() as u32 };
    draw.u32(seed);
}
