//! Times the proved code and the original Rust on the same work, and holds their results to be equal.

#[path = "../../../oracle/driver/src/identify/identifier.rs"]
#[allow(dead_code)]
mod identifier;

use plaits::fm::algorithms::{Algorithms, OPCODES_6_32};
use plaits::fm::operator::{self as fm, RenderFn, render_operators};
use plaits::fm::patch::{Envelope, Operator, Patch};
use plaits::fm::voice::{Voice, VoiceParameters};
use plaits::oscillator::sine_oscillator::sine_pm;
use std::cell::RefCell;
use std::hint::black_box;
use std::time::Instant;

unsafe extern "C" {
    fn bench_sine_pm(blocks: u32, phase: u32, step: u32, pm: f32, pm_step: f32, out: *mut f32, len: usize);
    fn bench_render_none(
        blocks: u32,
        size: u32,
        frequency: f32,
        target: f32,
        add: u8,
        out: *mut f32,
        len: usize,
    ) -> u32;
    fn bench_render_external(
        blocks: u32,
        size: u32,
        frequency: f32,
        target: f32,
        add: u8,
        modulation: *const f32,
        modulation_len: usize,
        out: *mut f32,
        len: usize,
    ) -> u32;
    fn bench_render_feedback(
        blocks: u32,
        size: u32,
        frequency: f32,
        target: f32,
        amount: u8,
        add: u8,
        out: *mut f32,
        len: usize,
    ) -> u32;
    fn bench_read(bytes: *const u8, len: usize) -> u8;
    fn bench_unpack(bytes: *const u8, len: usize, times: usize) -> u8;
    fn bench_pack(bytes: *const u8, len: usize, times: usize) -> u8;
    fn bench_check(bytes: *const u8, len: usize, times: usize) -> u8;
    fn bench_again(bytes: *const u8, len: usize, out: *mut [u8; 128]) -> u8;
    fn bench_voice(bytes: *const u8, len: usize, note: f32, blocks: u32, block: *mut f32, size: usize) -> u32;
    fn bench_setup(bytes: *const u8, len: usize, times: u32, block: *mut f32, size: usize) -> u32;
    fn bench_identify(bytes: *const u8, len: usize) -> u64;
    fn bench_validate(dump: *const u8, len: usize) -> u8;
    fn bench_pieces(dump: *const u8, len: usize, size: usize) -> u8;
    fn bench_compile(a: u8, b: u8, c: u8, d: u8, e: u8, f: u8) -> u8;
}

/// Rounds in turn: each side does the work, and the least time of each counts.
fn race(what: &str, per: f64, mut ours: impl FnMut(), mut rust: impl FnMut()) {
    let (mut least_ours, mut least_rust) = (f64::MAX, f64::MAX);
    for _ in 0..100 {
        let start = Instant::now();
        ours();
        least_ours = least_ours.min(start.elapsed().as_secs_f64());
        let start = Instant::now();
        rust();
        least_rust = least_rust.min(start.elapsed().as_secs_f64());
    }
    let nanos = |seconds: f64| seconds * 1e9 / per;
    println!("| {what} | {:.2} | {:.2} | {:.2} |", nanos(least_ours), nanos(least_rust), least_ours / least_rust);
}

/// Blocks of the sine, one after the other in the same place: each starts one further on than the last.
fn sine_block(samples: usize) {
    let blocks = (100_000 / samples) as u32;
    let (mut a, mut b) = (vec![0f32; samples], vec![0f32; samples]);
    let (start, step, pm, pm_step) =
        (black_box(77u32), black_box(12_345_678u32), black_box(-0.3f32), black_box(0.001f32));
    race(
        &format!("`sine_pm`, blocks of {samples}: ns a sample"),
        (blocks as usize * samples) as f64,
        || {
            unsafe { bench_sine_pm(blocks, start, step, pm, pm_step, a.as_mut_ptr(), samples) };
            black_box(&a);
        },
        || {
            for k in 0..blocks {
                let (mut phase, mut pm) = (start.wrapping_add(k), pm);
                for out in b.iter_mut() {
                    phase = phase.wrapping_add(step);
                    *out = sine_pm(phase, pm);
                    pm += pm_step;
                }
                black_box(&b);
            }
        },
    );
    assert!(same(&a, &b), "the two sides differ");
}

fn same(a: &[f32], b: &[f32]) -> bool {
    a.iter().zip(b).all(|(x, y)| x.to_bits() == y.to_bits())
}

/// Blocks of one operator, one after the other in the same place. The Rust's renderer is called by a pointer, as its
/// voice calls it.
fn operator_block(
    what: &str,
    samples: usize,
    render: RenderFn,
    mut ours: impl FnMut(u32, u32, &[f32], &mut [f32]) -> u32,
) {
    let blocks = 100_000 / samples;
    let mut modulation: Vec<f32> = bytes(samples).iter().map(|x| *x as f32 / 64.0 - 2.0).collect();
    let (mut a, mut b) = (vec![0f32; samples], vec![0f32; samples]);
    let (mut phase, mut operators) = (0, [fm::Operator::new()]);
    let buffer = modulation.clone();
    race(
        &format!("{what}, blocks of {samples}: ns a sample"),
        (blocks * samples) as f64,
        || {
            phase = ours(blocks as u32, samples as u32, &buffer, &mut a);
            black_box(&a);
        },
        || {
            operators = [fm::Operator::new()];
            let mut feedback = [0.0; 2];
            let (input, output) = (RefCell::new(&mut modulation[..]), RefCell::new(&mut b[..]));
            let render = black_box(render);
            for _ in 0..blocks {
                render(&mut operators, &[FREQUENCY], &[TARGET], &mut feedback, AMOUNT as i32, &input, &output);
            }
        },
    );
    assert!(phase == operators[0].phase && same(&a, &b), "the two sides differ");
}

const FREQUENCY: f32 = 0.0123;
const TARGET: f32 = 0.8;
const AMOUNT: u8 = 5;

fn operators(samples: usize) {
    operator_block("an operator alone", samples, render_operators::<1, -1, false>, |blocks, size, _, out| unsafe {
        bench_render_none(blocks, size, black_box(FREQUENCY), TARGET, black_box(0), out.as_mut_ptr(), out.len())
    });
    operator_block(
        "an operator, modulated",
        samples,
        render_operators::<1, -2, false>,
        |blocks, size, input, out| unsafe {
            let (from, len) = (input.as_ptr(), input.len());
            bench_render_external(
                blocks,
                size,
                black_box(FREQUENCY),
                TARGET,
                black_box(0),
                from,
                len,
                out.as_mut_ptr(),
                out.len(),
            )
        },
    );
    operator_block(
        "an operator with feedback",
        samples,
        render_operators::<1, 0, false>,
        |blocks, size, _, out| unsafe {
            bench_render_feedback(
                blocks,
                size,
                black_box(FREQUENCY),
                TARGET,
                AMOUNT,
                black_box(0),
                out.as_mut_ptr(),
                out.len(),
            )
        },
    );
}

fn mixed_envelope(e: &Envelope) -> u8 {
    e.rate.iter().chain(&e.level).fold(0, |all, x| all ^ x)
}

fn mixed_operator(o: &Operator) -> u8 {
    let k = &o.keyboard_scaling;
    let scaling = k.left_depth ^ k.right_depth ^ k.left_curve ^ k.right_curve ^ k.break_point;
    let sensitivities = o.rate_scaling ^ o.amp_mod_sensitivity ^ o.velocity_sensitivity;
    mixed_envelope(&o.envelope) ^ scaling ^ sensitivities ^ o.level ^ o.mode ^ o.coarse ^ o.fine ^ o.detune
}

/// Every field of a patch, as the proved side mixes them.
fn mixed_patch(p: &Patch) -> u8 {
    let m = &p.modulations;
    let depths = m.delay ^ m.rate ^ m.pitch_mod_depth ^ m.amp_mod_depth;
    let lfo = depths ^ m.reset_phase ^ m.waveform ^ m.pitch_mod_sensitivity;
    let operators = p.op.iter().fold(0, |all, o| all ^ mixed_operator(o));
    let name = p.name.iter().fold(0, |all, x| all ^ x);
    operators ^ mixed_envelope(&p.pitch_envelope) ^ lfo ^ name ^ p.algorithm ^ p.feedback ^ p.reset_phase ^ p.transpose
}

/// Bytes that look random, the same in every run.
fn bytes(count: usize) -> Vec<u8> {
    let mut state = 1u32;
    let next = |_| {
        state = state.wrapping_mul(1664525).wrapping_add(1013904223);
        (state >> 24) as u8
    };
    (0..count).map(next).collect()
}

/// Eight patches unpacked in turn by the Rust, `times` in all, as the proved side does.
fn unpack(data: &[u8], times: usize) -> u8 {
    let mut patches: [Patch; 8] = std::array::from_fn(|_| Patch::new());
    for i in 0..times {
        patches[i % 8] = Patch::new();
        patches[i % 8].unpack(&data[128 * (i % 8)..][..128]);
    }
    mixed_patch(&black_box(&patches)[times % 8])
}

/// Bytes that were unpacked and packed again: the same from then on.
fn clean(data: &[u8]) -> Vec<u8> {
    let again = |chunk: &[u8]| {
        let mut out = [0; 128];
        assert_eq!(unsafe { bench_again(chunk.as_ptr(), 128, &mut out) }, 0, "an unpacked patch is refused");
        out
    };
    let packed: Vec<u8> = data.chunks(128).flat_map(again).collect();
    assert!(packed.chunks(128).all(|chunk| again(chunk) == *chunk), "clean bytes are not packed again");
    packed
}

/// Patches unpacked one by one, every field of each read.
fn readings() {
    let data = bytes(128 * 64);
    let each = || data.chunks(128).map(black_box);
    let (mut ours, mut rust) = (0, 0);
    race(
        "unpacking, every field read: ns a patch",
        64.0,
        || {
            ours = each().fold(0u8, |all, chunk| {
                let read = unsafe { bench_read(chunk.as_ptr(), chunk.len()) };
                all.rotate_left(1) ^ read
            })
        },
        || {
            rust = each().fold(0u8, |all, chunk| {
                let mut patch = Patch::new();
                patch.unpack(chunk);
                all.rotate_left(1) ^ mixed_patch(&patch)
            })
        },
    );
    assert_eq!(ours, rust, "the two sides differ");
}

fn patches() {
    const TIMES: usize = 8000;
    let data = clean(&bytes(1024));
    let (mut ours, mut rust) = (0, 0);
    let unpacking = || unsafe { bench_unpack(black_box(&data).as_ptr(), data.len(), TIMES) };
    let packing = || unsafe { bench_pack(black_box(&data).as_ptr(), data.len(), TIMES) };
    let checking = || unsafe { bench_check(black_box(&data).as_ptr(), data.len(), TIMES) };
    let by_the_rust = || unpack(black_box(&data), TIMES);
    race("unpacking: ns a patch", TIMES as f64, || ours = unpacking(), || rust = by_the_rust());
    assert_eq!(ours, rust, "the two sides differ");
    let packing_row = "packing, beside the Rust's unpacking: ns a patch";
    race(packing_row, TIMES as f64, || ours = packing(), || rust = by_the_rust());
    assert_eq!(ours, data[..128].iter().fold(0, |all, b| all ^ b), "the packed bytes differ");
    let checking_row = "checking, beside the Rust's unpacking: ns a patch";
    race(checking_row, TIMES as f64, || ours = checking(), || rust = by_the_rust());
    assert_eq!(ours, 0, "an unpacked patch is refused");
}

fn bank() {
    let mut dump = vec![0xf0, 0x43, 0, 9, 0x20, 0];
    dump.extend(bytes(4096).iter().map(|b| b % 128));
    let sum: u32 = dump[6..].iter().map(|b| *b as u32).sum();
    dump.extend([(128 - sum % 128) as u8 % 128, 0xf7]);
    let mut number = 1;
    race(
        "validating a bank, beside a bare sum of its bytes: ns",
        1.0,
        || number = unsafe { bench_validate(black_box(&dump).as_ptr(), dump.len()) },
        || {
            black_box(black_box(&dump).iter().fold(0u8, |all, b| all.wrapping_add(*b)));
        },
    );
    assert_eq!(number, 0, "the dump is refused");
    for size in [64, 128, 256, 1024, 4104] {
        pieces(&dump, size);
    }
}

/// Copies the pieces of a size into a patch's buffer, each up to the end of the patch at hand, as reading them must.
fn copy_pieces(dump: &[u8], size: usize, patch: &mut [u8; 128]) {
    let mut at = 0;
    while at < dump.len() {
        let piece = (at / size + 1) * size;
        let (filled, end) = match at {
            0..6 => (0, 6),
            6..4102 => ((at - 6) % 128, at + 128 - (at - 6) % 128),
            _ => (0, dump.len()),
        };
        let end = end.min(piece).min(dump.len());
        if (6..4102).contains(&at) {
            patch[filled..filled + end - at].copy_from_slice(&dump[at..end]);
        }
        black_box(&mut *patch);
        at = end;
    }
}

/// A bank in pieces of a size, rests given again, beside its validating and a copy of its bytes: all of them in one go,
/// and as the pieces are cut.
fn pieces(dump: &[u8], size: usize) {
    const TIMES: usize = 100;
    let mut ours = 0;
    let mut reading =
        || (0..TIMES).for_each(|_| ours = unsafe { bench_pieces(black_box(dump).as_ptr(), dump.len(), size) });
    let validating = || unsafe { bench_validate(black_box(dump).as_ptr(), dump.len()) };
    let (mut copy, mut patch) = (vec![0; dump.len()], [0; 128]);
    let at_once = || {
        for _ in 0..TIMES {
            black_box(&mut copy).copy_from_slice(black_box(dump));
            black_box(validating());
        }
    };
    let what = format!("a bank in pieces of {size}, beside validating it and a copy of its bytes");
    race(&format!("{what} at once: ns"), TIMES as f64, &mut reading, at_once);
    let as_cut = || {
        for _ in 0..TIMES {
            copy_pieces(black_box(dump), black_box(size), &mut patch);
            black_box(validating());
        }
    };
    race(&format!("{what} as it is cut: ns"), TIMES as f64, &mut reading, as_cut);
    let reports = (0..32).fold(0, |all, slot| all ^ slot as u8 ^ dump[133 + 128 * slot]);
    assert_eq!(ours, reports, "other patches are reported, or the dump is refused");
}

fn rows() {
    let mut algorithms = Algorithms::<6, 32>::new();
    let mut all = 0;
    race(
        "compiling a row of six: ns",
        32.0,
        || {
            for row in &OPCODES_6_32 {
                let [a, b, c, d, e, f] = *black_box(row);
                all ^= unsafe { bench_compile(a, b, c, d, e, f) };
            }
        },
        || {
            for row in 0..32 {
                algorithms.compile(black_box(row));
            }
            black_box(&algorithms);
        },
    );
    black_box(all);
}

/// The Rust's blank block and so many that sound, from a fresh voice; the phase of its last operator.
fn rust_voice(algorithms: &Algorithms<6, 32>, data: &[u8], note: f32, blocks: u32, block: &mut [f32]) -> u32 {
    let mut patch = Patch::new();
    patch.unpack(data);
    let mut voice = Voice::<6, 32>::new();
    voice.init(algorithms, 48000.0);
    voice.set_patch(Some(patch));
    let parameters = VoiceParameters {
        gate: true,
        note,
        velocity: 0.8,
        brightness: 0.5,
        envelope_control: 0.5,
        ..VoiceParameters::new()
    };
    let samples = block.len() / 4;
    let mut quarters = block.chunks_mut(samples);
    let buffers: [RefCell<&mut [f32]>; 4] = std::array::from_fn(|_| RefCell::new(quarters.next().unwrap()));
    for _ in 0..=blocks {
        voice.render(&parameters, &buffers);
    }
    voice.operator[5].phase
}

/// A packed patch that sounds: every operator at its level, this algorithm, feedback 7.
fn sounding(algorithm: u8) -> Vec<u8> {
    let mut data = Vec::new();
    for k in 0..6u8 {
        data.extend([80, 50, 40, 60, 99, 90, 80, 0, 39, 10, 20, 4, 3 << 3 | 2, 2 << 2, 90 - k, (k % 3 + 1) << 1, k]);
    }
    data.extend([99, 99, 99, 99, 50, 50, 50, 50, algorithm, 7, 35, 0, 0, 0, 0, 24]);
    data.extend(b"BENCHMARK ");
    data
}

fn voices(samples: usize) {
    let mut algorithms = Algorithms::<6, 32>::new();
    algorithms.init();
    let blocks = (20_000 / samples) as u32;
    for number in [1u8, 4, 5, 19, 32] {
        let data = sounding(number - 1);
        let (mut a, mut b) = (vec![0f32; 4 * samples], vec![0f32; 4 * samples]);
        let (mut ours, mut rust) = (0, 0);
        race(
            &format!("a voice, algorithm {number}, blocks of {samples}: ns a block"),
            blocks as f64,
            || {
                a.fill(0.0);
                ours = unsafe { bench_voice(data.as_ptr(), 128, black_box(60.0), blocks, a.as_mut_ptr(), a.len()) };
            },
            || {
                b.fill(0.0);
                rust = rust_voice(&algorithms, &data, black_box(60.0), blocks, &mut b);
            },
        );
        assert!(ours == rust && same(&a, &b), "the two sides differ");
    }
}

/// A patch set up again and again, each time in a blank block of four samples.
fn setups() {
    const TIMES: u32 = 1_000;
    let mut algorithms = Algorithms::<6, 32>::new();
    algorithms.init();
    let data = sounding(0);
    let mut patch = Patch::new();
    patch.unpack(&data);
    let mut voice = Voice::<6, 32>::new();
    voice.init(&algorithms, 48000.0);
    voice.set_patch(Some(patch));
    let parameters = VoiceParameters::new();
    let mut quarters = [[0f32; 4]; 4];
    let buffers = quarters.each_mut().map(|quarter| RefCell::new(&mut quarter[..]));
    let (mut block, mut ours) = ([0f32; 16], 0);
    race(
        "a blank block, which sets a patch up: ns",
        TIMES as f64,
        || ours = unsafe { bench_setup(data.as_ptr(), 128, black_box(TIMES), block.as_mut_ptr(), block.len()) },
        || {
            for _ in 0..TIMES {
                black_box(&mut voice).dirty = true;
                voice.render(&parameters, &buffers);
            }
        },
    );
    let mixed_in = |sum: u32, x: &f32| sum.wrapping_mul(31).wrapping_add(x.to_bits());
    let rust = voice.operator_envelope.iter().zip(&voice.level_headroom).fold(0, |sum, (envelope, headroom)| {
        let sum = envelope.0.level.iter().fold(sum, mixed_in);
        mixed_in(envelope.0.increment.iter().fold(sum, mixed_in), headroom)
    });
    assert_eq!(ours, rust, "the two sides differ");
}

/// Many patches: for each of three notes a fresh voice, its blank block and eight of 256 samples.
fn many_patches() {
    let mut algorithms = Algorithms::<6, 32>::new();
    algorithms.init();
    let data = bytes(128 * 40_000);
    let (mut a, mut b) = (vec![0f32; 1024], vec![0f32; 1024]);
    let (mut least_ours, mut least_rust) = (f64::MAX, f64::MAX);
    for _ in 0..2 {
        let (mut ours, mut rust) = (0.0, 0.0);
        for (k, chunk) in data.chunks(128).enumerate() {
            for note in [36.0, 60.0, 84.0] {
                a.fill(0.0);
                b.fill(0.0);
                let start = Instant::now();
                let x = unsafe { bench_voice(chunk.as_ptr(), 128, note, 8, a.as_mut_ptr(), a.len()) };
                ours += start.elapsed().as_secs_f64();
                let start = Instant::now();
                let y = rust_voice(&algorithms, chunk, note, 8, &mut b);
                rust += start.elapsed().as_secs_f64();
                assert!(x == y && same(&a, &b), "the two sides differ at patch {k}");
            }
        }
        (least_ours, least_rust) = (f64::min(least_ours, ours), f64::min(least_rust, rust));
    }
    let per = |seconds: f64| seconds * 1e6 / 40_000.0;
    println!(
        "| 40,000 patches, three notes, eight blocks of 256: us a patch | {:.1} | {:.1} | {:.2} |",
        per(least_ours),
        per(least_rust),
        least_ours / least_rust
    );
}

/// Identifiers of patches whose LFO is accepted, one after the other; every one is held equal.
fn identifiers(count: usize) {
    let table = identifier::table();
    let mut data = bytes(128 * count);
    data.chunks_mut(128).for_each(|chunk| chunk[116] %= 128);
    let (mut ours, mut rust) = (0.0, 0.0);
    for (k, chunk) in data.chunks(128).enumerate() {
        let start = Instant::now();
        let x = unsafe { bench_identify(chunk.as_ptr(), 128) };
        ours += start.elapsed().as_secs_f64();
        let start = Instant::now();
        let mut patch = Patch::new();
        patch.unpack(chunk);
        let y = identifier::identifier(&table, &patch, identifier::Hidden::Set);
        rust += start.elapsed().as_secs_f64();
        assert_eq!(x, y, "the two sides differ at patch {k}");
    }
    let rate = |seconds: f64| count as f64 / seconds;
    println!(
        "| {count} identifiers: patches a second (here more is better) | {:.0} | {:.0} | {:.2} |",
        rate(ours),
        rate(rust),
        ours / rust
    );
}

fn main() {
    println!("| work | ours | the Rust | ratio |\n|---|---|---|---|");
    for samples in [24, 64, 256, 1024] {
        sine_block(samples);
    }
    for samples in [24, 64, 256, 1024] {
        operators(samples);
    }
    readings();
    patches();
    bank();
    rows();
    setups();
    for samples in [24, 64, 256, 1024] {
        voices(samples);
    }
    many_patches();
    identifiers(40_000);
}
