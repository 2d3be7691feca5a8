//! Banks, of the group of patches. Their reader is not in the Rust: it is written here from the rules (docs/RULES.md),
//! the channel from request a's words.

use crate::entry::draw::Draw;
use crate::entry::{Entry, entry};
use crate::wire::kind::Kind::{Bytes, U32};

pub const ENTRIES: &[Entry] = &[
    entry(0x24, "checksum", &[Bytes], "u8", |given, _, answer| answer.u8(checksum(&given.bytes())))
        .drawn(|draw| {
            let length = draw.one_of(&[0, 1, 2, 3, 8, 127, 128, 129, 300]);
            let bytes: Vec<u8> = (0..length).map(|_| draw.any_u8()).collect();
            draw.bytes(&bytes);
        })
        .every(2 + 256, |nth, draw| match nth {
            0 => draw.bytes(&[]),
            1 => draw.bytes(&[0; 4096]),
            _ => draw.bytes(&[(nth - 2) as u8]),
        }),
    entry(0x25, "bank_number", &[Bytes, U32], "u8 number", |given, _, answer| {
        answer.u8(number(&given.bytes(), given.u32()))
    })
    .drawn(|draw| dump_and_slot(draw, 4))
    .every(BANKS, every_bank)
    .weight(1),
    entry(0x26, "bank_part", &[Bytes, U32], "u8 number, bytes", |given, _, answer| {
        let (dump, slot) = (given.bytes(), given.u32());
        answer.name("number").u8(number(&dump, slot));
        answer.name("part").slice(part(&dump, slot));
    })
    .drawn(|draw| dump_and_slot(draw, 4))
    .every(16 * 33, every_slot)
    .weight(1),
    entry(0x27, "bank_read", &[Bytes, U32], "bytes, by way of the reader", |given, _, answer| {
        let (dump, slot) = (given.bytes(), given.u32());
        answer.name("part").slice(part(&dump, slot));
    })
    .drawn(|draw| dump_and_slot(draw, 4))
    .every(16 * 33, every_slot)
    .weight(1),
    entry(0x28, "bank_validate", &[Bytes], "u8 number", |given, _, answer| answer.u8(validate(&given.bytes())))
        .drawn(|draw| {
            let dump = dump(draw, 4);
            draw.bytes(&dump);
        })
        .every(16 * DUMPS, every_dump)
        .weight(1),
    entry(0x2a, "bank_channel", &[Bytes], "u8 number, u8 channel", |given, _, answer| {
        let dump = given.bytes();
        let number = validate(&dump);
        answer.name("number").u8(number);
        answer.name("channel").u8(if number == 0 { dump[2] } else { 0 });
    })
    .drawn(|draw| {
        let dump = dump(draw, 2);
        draw.bytes(&dump);
    })
    .every(16 * DUMPS, every_dump)
    .weight(1),
];

/// The bytes before the data: `F0 43 0n 09 20 00`, n the channel, 0 to 15.
fn framed(header: &[u8]) -> bool {
    header[..2] == [0xf0, 0x43] && header[2] <= 15 && header[3..] == [0x09, 0x20, 0x00]
}

pub fn checksum(bytes: &[u8]) -> u8 {
    let sum: u32 = bytes.iter().map(|byte| *byte as u32).sum();
    ((128 - sum % 128) % 128) as u8
}

/// 10 wrong length, 11 wrong frame byte, 12 data byte above 127, 13 wrong checksum.
pub fn validate(dump: &[u8]) -> u8 {
    if dump.len() != 4104 {
        return 10;
    }
    let data = &dump[6..4102];
    let sum: u32 = dump[6..4103].iter().map(|byte| *byte as u32).sum();
    match () {
        _ if !framed(&dump[..6]) || dump[4103] != 0xf7 => 11,
        _ if data.iter().any(|byte| *byte > 127) => 12,
        _ if dump[4102] >= 128 || sum % 128 != 0 => 13,
        _ => 0,
    }
}

fn number(dump: &[u8], slot: u32) -> u8 {
    if slot > 31 { 2 } else { validate(dump) }
}

pub fn part(dump: &[u8], slot: u32) -> &[u8] {
    if number(dump, slot) == 0 { &dump[6 + 128 * slot as usize..][..128] } else { &[] }
}

/// The sound dump of 4,096 data bytes, on a channel.
pub fn bank(channel: u8, data: &[u8]) -> Vec<u8> {
    let mut dump = vec![0xf0, 0x43, channel, 0x09, 0x20, 0x00];
    dump.extend(data);
    dump.push(checksum(data));
    dump.push(0xf7);
    dump
}

/// A sound dump on a channel.
pub fn sound(draw: &mut Draw, channel: u8) -> Vec<u8> {
    let data: Vec<u8> = (0..512).flat_map(|_| (draw.random() & 0x7f7f_7f7f_7f7f_7f7f).to_le_bytes()).collect();
    bank(channel, &data)
}

/// A dump: short, or once in `often` of the right length or nearly, sound or with one byte damaged.
fn dump(draw: &mut Draw, often: u32) -> Vec<u8> {
    if !draw.one_in(often) {
        let length = draw.one_of(&[0, 1, 6, 8, 128, 136]);
        return (0..length).map(|_| draw.any_u8()).collect();
    }
    let channel = draw.below(16) as u8;
    let mut dump = sound(draw, channel);
    let frame = draw.one_of(&[0, 1, 2, 3, 4, 5, 4103]);
    let data = 6 + draw.below(4096) as usize;
    match draw.below(12) {
        0 => drop(dump.pop()),
        1 => dump.push(draw.any_u8()),
        2 => dump[frame] = draw.any_u8(),
        3 => dump[data] |= 0x80,
        4 => dump[data] = draw.any_u8(),
        5 => dump[4102] = draw.any_u8(),
        6 => {
            dump[4102] |= 0x80;
            dump[data] ^= draw.below(2) as u8;
        }
        7 => dump[2] = draw.one_of(&[14, 15, 16, 17, 0x1f, 0x30, 0x7f, 0x80, 0xf0, 0xff]),
        _ => (),
    }
    dump
}

fn dump_and_slot(draw: &mut Draw, often: u32) {
    let dump = dump(draw, often);
    let slot = match draw.below(8) {
        0 => draw.any_u32(),
        1 => draw.one_of(&[31, 32, 33]),
        _ => draw.below(32),
    };
    draw.bytes(&dump);
    draw.u32(slot);
}

/// A sound dump on every channel, at every slot and one past.
fn every_slot(nth: u64, draw: &mut Draw) {
    let dump = sound(draw, (nth / 33) as u8);
    draw.bytes(&dump);
    draw.u32((nth % 33) as u32);
}

/// A dump that is whole, or damaged in one place: every frame byte with every value, every data byte above 127, every
/// checksum, one byte short and long.
pub const DUMPS: u64 = 7 * 256 + 4096 + 256 + 3;

pub fn damaged(nth: u64, mut dump: Vec<u8>) -> Vec<u8> {
    match nth {
        0..1792 => dump[[0, 1, 2, 3, 4, 5, 4103][(nth / 256) as usize]] = nth as u8,
        1792..5888 => dump[(nth - 1792 + 6) as usize] |= 0x80,
        5888..6144 => dump[4102] = (nth - 5888) as u8,
        6144 => drop(dump.pop()),
        6145 => dump.push(0xf7),
        _ => (),
    }
    dump
}

/// Those of every channel.
fn every_dump(nth: u64, draw: &mut Draw) {
    let dump = damaged(nth % DUMPS, sound(draw, (nth / DUMPS) as u8));
    draw.bytes(&dump);
}

/// Those of one channel, and every slot and one past.
const BANKS: u64 = DUMPS + 33;

fn every_bank(nth: u64, draw: &mut Draw) {
    let channel = draw.below(16) as u8;
    let dump = damaged(nth, sound(draw, channel));
    draw.bytes(&dump);
    draw.u32(nth.saturating_sub(DUMPS) as u32);
}
