//! Single-voice dumps: not in the Rust, written here from request b's words. What is packed is unpacked by the Rust.

use crate::entry::draw::Draw;
use crate::entry::{Entry, entry};
use crate::groups::bank::checksum;
use crate::groups::patch::{check, pack};
use crate::wire::forms;
use crate::wire::kind::Kind::{Bytes, U8};
use plaits::fm::patch::{Envelope, KeyboardScaling, ModulationParameters, Operator, Patch};

pub const ENTRIES: &[Entry] = &[
    entry(0x90, "single_read", &[Bytes], "u8 number, u8 channel, the patch", |given, registers, answer| {
        let dump = given.bytes();
        let number = number(&dump);
        answer.name("number").u8(number);
        answer.name("channel").u8(if number == 0 { dump[2] } else { 0 });
        if number == 0 {
            registers.patch = voice(&dump[6..161]);
        }
        forms::patch(answer, &mut registers.patch);
    })
    .drawn(|draw| {
        let dump = dump(draw);
        draw.bytes(&dump);
    })
    .first(|draw| draw.bytes(&dump_by_hand()))
    .every(DUMPS, every_dump)
    .with_state()
    .weight(3),
    entry(0x91, "single_write", &[U8], "u8 number, 163 × u8", |given, registers, answer| {
        let channel = given.u8();
        let number = if fits(&registers.patch) && channel <= 15 { 0 } else { 6 };
        answer.name("number").u8(number);
        answer.name("dump").u8s(&if number == 0 { write(&registers.patch, channel) } else { [0; 163] });
    })
    .drawn(draw_channel)
    .first(|draw| draw.u8(5))
    .every(256, |nth, draw| draw.u8(nth as u8))
    .with_state()
    .weight(3),
    entry(0x92, "single_of_packed", &[Bytes, U8], PACKED, |given, _, answer| {
        let (packed, channel) = (given.bytes(), given.u8());
        let dump = of_packed(&packed, channel);
        answer.name("number").u8(*dump.as_ref().err().unwrap_or(&0));
        answer.name("14's place").u8(0);
        answer.name("dump").u8s(&dump.unwrap_or([0; 163]));
    })
    .drawn(packed_and_channel)
    .first(|draw| {
        draw.bytes(&BY_HAND);
        draw.u8(5);
    })
    .every(4 + 256 + 128 * 256, every_packed)
    .weight(3),
    entry(0x93, "packed_of_single", &[Bytes], "u8 number, u8 channel, 128 × u8", |given, _, answer| {
        let dump = given.bytes();
        let number = number(&dump);
        answer.name("number").u8(number);
        answer.name("channel").u8(if number == 0 { dump[2] } else { 0 });
        answer.name("packed").u8s(&if number == 0 { pack(&voice(&dump[6..161])) } else { [0; 128] });
    })
    .drawn(|draw| {
        let dump = dump(draw);
        draw.bytes(&dump);
    })
    .first(|draw| draw.bytes(&dump_by_hand()))
    .every(DUMPS, every_dump)
    .weight(3),
];

const PACKED: &str = "u8 number, u8 14's place (0 until request g), 163 × u8";

/// Whether 6 accepts a patch here: it refuses what it refuses everywhere, and a sensitivity above 7 besides.
fn fits(patch: &Patch) -> bool {
    check(patch) == 0 && patch.modulations.pitch_mod_sensitivity <= 7
}

/// 10 wrong length, 11 wrong frame byte, 12 data byte above 127, 13 wrong checksum, then 6.
pub fn number(dump: &[u8]) -> u8 {
    if dump.len() != 163 {
        return 10;
    }
    let data = &dump[6..161];
    let framed = dump[..2] == [0xf0, 0x43] && dump[2] <= 15 && dump[3..6] == [0x00, 0x01, 0x1b] && dump[162] == 0xf7;
    match () {
        _ if !framed => 11,
        _ if data.iter().any(|byte| *byte > 127) => 12,
        _ if dump[161] != checksum(data) => 13,
        _ if !fits(&voice(data)) => 6,
        _ => 0,
    }
}

fn four(bytes: &[u8]) -> [u8; 4] {
    bytes.try_into().unwrap()
}

/// The 21 bytes of an operator, in the request's order.
fn operator(b: &[u8]) -> Operator {
    Operator {
        envelope: Envelope { rate: four(&b[0..4]), level: four(&b[4..8]) },
        keyboard_scaling: KeyboardScaling {
            break_point: b[8],
            left_depth: b[9],
            right_depth: b[10],
            left_curve: b[11],
            right_curve: b[12],
        },
        rate_scaling: b[13],
        amp_mod_sensitivity: b[14],
        velocity_sensitivity: b[15],
        level: b[16],
        mode: b[17],
        coarse: b[18],
        fine: b[19],
        detune: b[20],
    }
}

/// The patch of 155 data bytes.
pub fn voice(data: &[u8]) -> Patch {
    let mut patch = Patch::new();
    patch.op = std::array::from_fn(|place| operator(&data[21 * place..][..21]));
    let b = &data[126..];
    patch.pitch_envelope = Envelope { rate: four(&b[0..4]), level: four(&b[4..8]) };
    (patch.algorithm, patch.feedback, patch.reset_phase) = (b[8], b[9], b[10]);
    patch.modulations = ModulationParameters {
        rate: b[11],
        delay: b[12],
        pitch_mod_depth: b[13],
        amp_mod_depth: b[14],
        reset_phase: b[15],
        waveform: b[16],
        pitch_mod_sensitivity: b[17],
    };
    patch.transpose = b[18];
    patch.name.copy_from_slice(&b[19..]);
    patch.active_operators = 63;
    patch
}

/// The 155 data bytes of a patch.
fn data(patch: &Patch) -> Vec<u8> {
    let mut data = Vec::new();
    for op in &patch.op {
        let scaling = &op.keyboard_scaling;
        data.extend(op.envelope.rate);
        data.extend(op.envelope.level);
        data.extend([scaling.break_point, scaling.left_depth, scaling.right_depth]);
        data.extend([scaling.left_curve, scaling.right_curve]);
        data.extend([op.rate_scaling, op.amp_mod_sensitivity, op.velocity_sensitivity, op.level]);
        data.extend([op.mode, op.coarse, op.fine, op.detune]);
    }
    let lfo = &patch.modulations;
    data.extend(patch.pitch_envelope.rate);
    data.extend(patch.pitch_envelope.level);
    data.extend([patch.algorithm, patch.feedback, patch.reset_phase]);
    data.extend([lfo.rate, lfo.delay, lfo.pitch_mod_depth, lfo.amp_mod_depth]);
    data.extend([lfo.reset_phase, lfo.waveform, lfo.pitch_mod_sensitivity, patch.transpose]);
    data.extend(patch.name);
    data
}

/// The dump of 155 data bytes on a channel.
fn framed(data: &[u8], channel: u8) -> [u8; 163] {
    let mut dump = vec![0xf0, 0x43, channel, 0x00, 0x01, 0x1b];
    dump.extend(data);
    dump.extend([checksum(data), 0xf7]);
    dump.try_into().unwrap()
}

/// The dump of a patch that fits; read again it is that patch.
pub fn write(patch: &Patch, channel: u8) -> [u8; 163] {
    let dump = framed(&data(patch), channel);
    assert!(number(&dump) == 0 && voice(&dump[6..161]) == *patch, "another patch is read than was written");
    dump
}

/// The dump of a packed patch, or the number it is refused with.
fn of_packed(packed: &[u8], channel: u8) -> Result<[u8; 163], u8> {
    if packed.len() < 128 {
        return Err(1);
    }
    let mut patch = Patch::new();
    patch.unpack(packed);
    if fits(&patch) && channel <= 15 { Ok(write(&patch, channel)) } else { Err(6) }
}

/// The largest number of each data byte, 7 for the sensitivity.
fn limits() -> Vec<u8> {
    const OPERATOR: [u8; 21] = [99, 99, 99, 99, 99, 99, 99, 99, 99, 99, 99, 3, 3, 7, 3, 7, 99, 1, 31, 99, 14];
    const COMMON: [u8; 19] = [99, 99, 99, 99, 99, 99, 99, 99, 31, 7, 1, 99, 99, 99, 99, 1, 5, 7, 48];
    OPERATOR.repeat(6).into_iter().chain(COMMON).chain([127; 10]).collect()
}

/// A sound dump on any channel.
pub fn sound(draw: &mut Draw) -> [u8; 163] {
    let data: Vec<u8> = limits().into_iter().map(|most| draw.field(most)).collect();
    framed(&data, draw.below(16) as u8)
}

/// The dump with another data byte and the checksum made right.
fn with(dump: [u8; 163], place: usize, byte: u8) -> [u8; 163] {
    let mut data = dump[6..161].to_vec();
    data[place] = byte;
    framed(&data, dump[2])
}

/// A dump that is mostly sound: else with a field at its limit or past it, a byte damaged, or of another length.
pub fn dump(draw: &mut Draw) -> Vec<u8> {
    let whole = sound(draw);
    let (place, any) = (draw.below(155) as usize, draw.any_u8());
    let most = limits()[place];
    let mut dump = whole.to_vec();
    match draw.below(24) {
        0 => return (0..draw.one_of(&[0, 1, 6, 8, 128, 162, 164, 4104])).map(|_| draw.any_u8()).collect(),
        1 => drop(dump.pop()),
        2 => dump.push(0xf7),
        3 => dump[draw.one_of(&[0, 1, 2, 3, 4, 5, 162])] = any,
        4 => dump[2] = draw.one_of(&[14, 15, 16, 17, 0x1f, 0x30, 0x7f, 0x80, 0xf0, 0xff]),
        5 => dump[6 + place] |= 0x80,
        6 => dump[6 + place] = any,
        7 => dump[161] = any,
        8 => dump[161] |= 0x80,
        9 | 10 => return with(whole, place, most).to_vec(),
        11 | 12 => return with(whole, place, most + 1).to_vec(),
        13 => return with(whole, 143, 8 + draw.below(8) as u8).to_vec(),
        14 => return with(whole, place, any & 127).to_vec(),
        15 => return framed(&(0..155).map(|_| draw.below(128) as u8).collect::<Vec<u8>>(), dump[2]).to_vec(),
        _ => (),
    }
    dump
}

fn draw_channel(draw: &mut Draw) {
    let channel = match draw.below(8) {
        0 => draw.any_u8(),
        1 => draw.one_of(&[0, 15, 16, 17]),
        _ => draw.below(16) as u8,
    };
    draw.u8(channel);
}

/// Packed bytes of nearly always enough length, those of patches that fit, clean or not, and any; and a channel.
fn packed_and_channel(draw: &mut Draw) {
    let length = draw.one_of(&[0, 127, 128, 128, 128, 128, 128, 128, 129, 256]);
    let mut bytes: Vec<u8> = match draw.below(4) {
        0 => pack(&voice(&sound(draw)[6..161])).to_vec(),
        1 => (0..128).map(|_| draw.below(128) as u8).collect(),
        2 => (0..128).map(|_| draw.below(256) as u8 & 127).collect(),
        _ => (0..128).map(|_| draw.any_u8()).collect(),
    };
    bytes.resize(length, 0x55);
    draw.bytes(&bytes);
    draw_channel(draw);
}

/// Lengths at the ends of what is taken; a sound dump with every byte at every value, the checksum as it was; and with
/// every data byte at every value below 128 and past, the checksum made right, so that every field is met at its limit
/// and past it.
const DUMPS: u64 = 4 + 163 * 256 + 155 * 256;

fn every_dump(nth: u64, draw: &mut Draw) {
    let whole = sound(draw);
    let Some(nth) = nth.checked_sub(4) else {
        let mut dump = whole.to_vec();
        dump.resize([0, 162, 163, 164][nth as usize], 0xf7);
        return draw.bytes(&dump);
    };
    let (place, byte) = (nth as usize / 256 % 318, nth as u8);
    if place >= 163 {
        return draw.bytes(&with(whole, place - 163, byte));
    }
    let mut dump = whole;
    dump[place] = byte;
    draw.bytes(&dump);
}

/// Lengths at the ends of what is taken, every channel, and every byte position times every value.
fn every_packed(nth: u64, draw: &mut Draw) {
    let mut bytes = pack(&voice(&sound(draw)[6..161])).to_vec();
    match nth {
        0..4 => bytes.resize([0, 127, 128, 129][nth as usize], 0x55),
        4..260 => (),
        _ => bytes[(nth - 260) as usize / 256] = (nth - 260) as u8,
    }
    draw.bytes(&bytes);
    draw.u8(if (4..260).contains(&nth) { (nth - 4) as u8 } else { (nth % 16) as u8 });
}

/// One patch written by hand in both forms: its data bytes in the request's order, and its packed bytes.
#[rustfmt::skip]
const DATA: [u8; 155] = [
    99, 71, 42, 13, 98, 87, 65, 1, 39, 11, 22, 0, 3, 5, 2, 7, 90, 0, 1, 33, 14,
    10, 20, 30, 40, 50, 60, 70, 80, 90, 5, 6, 1, 2, 7, 3, 4, 99, 1, 31, 99, 0,
    0, 99, 0, 99, 99, 0, 99, 0, 0, 99, 0, 3, 0, 0, 0, 0, 0, 0, 0, 0, 7,
    1, 2, 3, 4, 5, 6, 7, 8, 9, 10, 12, 2, 1, 4, 1, 5, 50, 1, 15, 20, 13,
    25, 35, 45, 55, 65, 75, 85, 95, 27, 77, 88, 1, 3, 6, 2, 6, 66, 0, 16, 50, 8,
    94, 67, 95, 60, 93, 28, 17, 9, 52, 0, 37, 2, 2, 1, 3, 1, 82, 1, 7, 5, 6,
    84, 95, 94, 60, 50, 51, 49, 48, 31, 6, 1, 35, 12, 5, 19, 1, 4, 3, 24,
    b'H', b'A', b'N', b'D', b' ', b'W', b'R', b'I', b'T', b'.',
];

#[rustfmt::skip]
const BY_HAND: [u8; 128] = [
    99, 71, 42, 13, 98, 87, 65, 1, 39, 11, 22, 12, 117, 30, 90, 2, 33,
    10, 20, 30, 40, 50, 60, 70, 80, 90, 5, 6, 9, 7, 19, 99, 63, 99,
    0, 99, 0, 99, 99, 0, 99, 0, 0, 99, 0, 3, 56, 0, 0, 0, 0,
    1, 2, 3, 4, 5, 6, 7, 8, 9, 10, 12, 6, 108, 21, 50, 31, 20,
    25, 35, 45, 55, 65, 75, 85, 95, 27, 77, 88, 13, 70, 26, 66, 32, 50,
    94, 67, 95, 60, 93, 28, 17, 9, 52, 0, 37, 10, 49, 7, 82, 15, 5,
    84, 95, 94, 60, 50, 51, 49, 48, 31, 14, 35, 12, 5, 19, 57, 24,
    b'H', b'A', b'N', b'D', b' ', b'W', b'R', b'I', b'T', b'.',
];

/// The dump of it on channel 5, its checksum by hand too.
fn dump_by_hand() -> Vec<u8> {
    [&[0xf0, 0x43, 0x05, 0x00, 0x01, 0x1b], &DATA[..], &[46, 0xf7]].concat()
}

/// What is written here by code agrees with what is written by hand.
pub fn agrees_with_hand() -> bool {
    let dump = dump_by_hand();
    let patch = voice(&DATA);
    let numbers = [patch.op[0].detune, patch.op[3].coarse, patch.op[4].level, patch.modulations.waveform];
    number(&dump) == 0
        && numbers == [14, 15, 66, 4]
        && write(&patch, 5).to_vec() == dump
        && of_packed(&BY_HAND, 5).is_ok_and(|written| written.to_vec() == dump)
        && pack(&patch) == BY_HAND
}

/// Across and back, either way, over random patches: the Rust unpacks the same patch from what comes back.
#[test]
fn across_and_back() {
    let mut draw = Draw::new(1);
    for turn in 0..1_000_000 {
        let dump = sound(&mut draw);
        let packed = pack(&voice(&dump[6..161]));
        assert_eq!(of_packed(&packed, dump[2]), Ok(dump), "turn {turn}");
        let any: [u8; 128] = std::array::from_fn(|_| draw.random() as u8 & 127);
        let mut patch = Patch::new();
        patch.unpack(&any);
        let back = voice(&of_packed(&any, 3).unwrap()[6..161]);
        assert_eq!(back, patch, "turn {turn}");
    }
}
