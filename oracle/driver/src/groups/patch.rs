//! Patches. Unpacking is the Rust's. The packer and the limits are not in the Rust: they are written here from the
//! rules (docs/RULES.md), and what was packed is unpacked again by the Rust.

use crate::entry::draw::Draw;
use crate::entry::{Entry, entry};
use crate::wire::forms;
use crate::wire::kind::Kind::{Bytes, U8, U8s};
use plaits::fm::patch::{ModulationParameters, Operator, Patch};

pub const ENTRIES: &[Entry] = &[
    entry(0x20, "put_patch", &[U8s(156)], "the patch, 156 × u8", |given, registers, answer| {
        forms::patch(given, &mut registers.patch);
        forms::patch(answer, &mut registers.patch);
    })
    .drawn(fields)
    .with_state()
    .weight(2),
    entry(0x21, "unpack", &[Bytes], "u8 number, the patch", |given, registers, answer| {
        let bytes = given.bytes();
        let number = if bytes.len() < 128 { 1 } else { 0 };
        if number == 0 {
            registers.patch.unpack(&bytes);
        }
        answer.name("number").u8(number);
        forms::patch(answer, &mut registers.patch);
    })
    .drawn(packed_patches)
    .every(5 + 2 * 128 * 256, every_packed)
    .with_state()
    .weight(4),
    entry(0x22, "pack", &[], "u8 number, 128 × u8", |_, registers, answer| {
        let number = check(&registers.patch);
        answer.name("number").u8(number);
        answer.name("bytes").u8s(&if number == 0 { pack(&registers.patch) } else { [0; 128] });
    })
    .with_state()
    .weight(6),
    entry(0x23, "check", &[], "u8 number", |_, registers, answer| answer.name("number").u8(check(&registers.patch)))
        .with_state()
        .weight(3),
    entry(0x29, "modulations_fit", &[U8s(7), U8], LIMIT, |given, _, answer| {
        let mut modulations = ModulationParameters::default();
        forms::modulations(given, &mut modulations);
        let most = given.u8();
        answer.bool(modulations_fit(&modulations, most));
    })
    .drawn(|draw| {
        [99, 99, 99, 99, 1, 5, 15].into_iter().for_each(|most| beside(draw, most));
        let most = draw.one_of(&[7, 15, 7, 15, 0, 255]);
        draw.u8(most);
    }),
];

const LIMIT: &str = "bool; the last number is the pitch sensitivity's largest";

/// Whether the LFO's fields are such that 6 does not apply.
pub fn modulations_fit(lfo: &ModulationParameters, pitch_mod_sensitivity: u8) -> bool {
    let numbers = [lfo.rate, lfo.delay, lfo.pitch_mod_depth, lfo.amp_mod_depth];
    let shape = lfo.reset_phase <= 1 && lfo.waveform <= 5 && lfo.pitch_mod_sensitivity <= pitch_mod_sensitivity;
    numbers.iter().all(|number| *number <= 99) && shape
}

fn operator_fits(operator: &Operator) -> bool {
    let scaling = &operator.keyboard_scaling;
    let depths = [scaling.left_depth, scaling.right_depth, scaling.break_point, operator.level, operator.fine];
    let numbers =
        operator.envelope.rate.iter().chain(&operator.envelope.level).chain(&depths).all(|number| *number <= 99);
    let curves = scaling.left_curve <= 3 && scaling.right_curve <= 3 && operator.amp_mod_sensitivity <= 3;
    let small = operator.velocity_sensitivity <= 7 && operator.rate_scaling <= 7 && operator.detune <= 14;
    numbers && curves && small && operator.coarse <= 31 && operator.mode <= 1
}

/// 6 for a field above its largest number or active operators not 63.
pub fn check(patch: &Patch) -> u8 {
    let envelope = patch.pitch_envelope.rate.iter().chain(&patch.pitch_envelope.level).all(|number| *number <= 99);
    let numbers = patch.algorithm <= 31 && patch.feedback <= 7 && patch.reset_phase <= 1 && patch.transpose <= 48;
    let letters = patch.name.iter().all(|letter| *letter <= 127) && patch.active_operators == 63;
    let fits =
        patch.op.iter().all(operator_fits) && envelope && numbers && modulations_fit(&patch.modulations, 15) && letters;
    if fits { 0 } else { 6 }
}

/// The 128 bytes of a patch that 6 accepts.
pub fn pack(patch: &Patch) -> [u8; 128] {
    let mut bytes = [0; 128];
    for (op, to) in patch.op.iter().zip(bytes.chunks_exact_mut(17)) {
        let scaling = &op.keyboard_scaling;
        to[..4].copy_from_slice(&op.envelope.rate);
        to[4..8].copy_from_slice(&op.envelope.level);
        to[8..11].copy_from_slice(&[scaling.break_point, scaling.left_depth, scaling.right_depth]);
        to[11] = scaling.left_curve | scaling.right_curve << 2;
        to[12] = op.rate_scaling | op.detune << 3;
        to[13] = op.amp_mod_sensitivity | op.velocity_sensitivity << 2;
        to[14..].copy_from_slice(&[op.level, op.mode | op.coarse << 1, op.fine]);
    }
    let lfo = &patch.modulations;
    bytes[102..106].copy_from_slice(&patch.pitch_envelope.rate);
    bytes[106..110].copy_from_slice(&patch.pitch_envelope.level);
    bytes[110..112].copy_from_slice(&[patch.algorithm, patch.feedback | patch.reset_phase << 3]);
    bytes[112..116].copy_from_slice(&[lfo.rate, lfo.delay, lfo.pitch_mod_depth, lfo.amp_mod_depth]);
    bytes[116] = lfo.reset_phase | lfo.waveform << 1 | lfo.pitch_mod_sensitivity << 4;
    bytes[117] = patch.transpose;
    bytes[118..].copy_from_slice(&patch.name);
    let mut back = Patch::new();
    back.unpack(&bytes);
    assert_eq!(&back, patch, "the Rust unpacks another patch than was packed");
    bytes
}

/// A field, now and then just past its largest number.
fn beside(draw: &mut Draw, most: u8) {
    let x = if draw.one_in(40) { draw.field_or_past(most) } else { draw.field(most) };
    draw.u8(x);
}

/// A patch's fields: mostly all in range but at most one, so that packing is often accepted.
pub fn fields(draw: &mut Draw) {
    const OPERATOR: [u8; 21] = [99, 99, 99, 99, 99, 99, 99, 99, 99, 99, 3, 3, 99, 7, 3, 7, 99, 1, 31, 99, 14];
    const COMMON: [u8; 19] = [99, 99, 99, 99, 99, 99, 99, 99, 31, 7, 1, 99, 99, 99, 99, 1, 5, 15, 48];
    let limits: Vec<u8> = OPERATOR.repeat(6).into_iter().chain(COMMON).chain([127; 10]).collect();
    let mut fields: Vec<u8> = limits.iter().map(|most| draw.field(*most)).collect();
    fields.push(63);
    let place = draw.below(156) as usize;
    match draw.below(8) {
        0 => fields[place] = limits.get(place).map_or(62, |most| most + 1),
        1 => fields[place] = draw.any_u8(),
        2 if draw.one_in(4) => fields.iter_mut().for_each(|field| *field = draw.any_u8()),
        3 => fields[155] = draw.any_u8(),
        _ => (),
    }
    fields.into_iter().for_each(|field| draw.u8(field));
}

/// Packed bytes of nearly always enough length: in range, beside it, or any.
fn packed_patches(draw: &mut Draw) {
    let length = draw.one_of(&[0, 127, 128, 128, 128, 128, 128, 129, 130, 256]);
    let kind = draw.below(3);
    let bytes: Vec<u8> = (0..length)
        .map(|_| match kind {
            0 => draw.below(100) as u8,
            1 => draw.below(128) as u8,
            _ => draw.any_u8(),
        })
        .collect();
    draw.bytes(&bytes);
}

/// Lengths at the ends of what is taken, then every byte position times every value, among zeros and among others.
fn every_packed(nth: u64, draw: &mut Draw) {
    let Some(nth) = nth.checked_sub(5) else {
        let length = [0, 127, 128, 129, 4104][nth as usize];
        return draw.bytes(&vec![0x55; length]);
    };
    let mut bytes = [0; 128];
    if nth >= 128 * 256 {
        bytes = std::array::from_fn(|place| (place * 37 + 11) as u8);
    }
    bytes[(nth / 256 % 128) as usize] = nth as u8;
    draw.bytes(&bytes);
}
