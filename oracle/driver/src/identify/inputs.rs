//! Inputs of the program `identify`: banks, packed patches, single-voice dumps, and what is refused.

use crate::entry::draw::Draw;
use crate::groups::bank::{bank, validate};
use crate::groups::single;
use crate::identify::corpus::corpus;
use plaits::fm::patch::Patch;

/// A packed patch: any bytes below `end`, with an LFO that is mostly heard within the notes.
fn packed(draw: &mut Draw, end: u32) -> [u8; 128] {
    let mut bytes: [u8; 128] = std::array::from_fn(|_| draw.below(end) as u8);
    if draw.one_in(2) {
        // Levels that sound, fields that are in range.
        for op in bytes.chunks_exact_mut(17).take(6) {
            op[14] = 60 + draw.below(40) as u8;
            op[4] = 60 + draw.below(40) as u8;
        }
    }
    if !draw.one_in(4) {
        bytes[113] = draw.below(20) as u8;
    }
    if draw.one_in(3) {
        bytes[116] = bytes[116] & 0xf1 | 5 << 1;
        bytes[112] = 60 + draw.below(40) as u8;
    }
    bytes
}

pub fn random_bank(draw: &mut Draw) -> Vec<u8> {
    let end = draw.one_of(&[100, 128]);
    let patches: Vec<u8> = (0..32).flat_map(|_| packed(draw, end)).collect();
    bank(draw.below(16) as u8, &patches)
}

/// A single-voice dump of a packed patch, its sensitivity at most 7.
fn one_voice(draw: &mut Draw) -> Vec<u8> {
    let mut patch = Patch::new();
    patch.unpack(&packed(draw, 128));
    single::write(&patch, draw.below(16) as u8).to_vec()
}

/// Inputs in turn: the corpus on each channel; then mostly banks, packed patches with any bytes, single-voice dumps,
/// and inputs that are refused.
pub fn input(draw: &mut Draw, turn: u64) -> Vec<u8> {
    match turn % 8 {
        _ if turn < 16 => corpus(turn as u8),
        3 => one_voice(draw),
        4 => single::dump(draw),
        5 => packed(draw, 256).to_vec(),
        6 => {
            let length = draw.one_of(&[0, 1, 127, 129, 162, 164, 4103, 4105, 4106, 20_000]);
            (0..length).map(|_| draw.any_u8()).collect()
        }
        7 => {
            let mut dump = random_bank(draw);
            let place = draw.below(4104) as usize;
            dump[place] = draw.any_u8();
            if validate(&dump) == 0 { dump[..128].to_vec() } else { dump }
        }
        _ => random_bank(draw),
    }
}

/// The slots of a sound dump.
pub fn slots(dump: &[u8]) -> impl DoubleEndedIterator<Item = (usize, &[u8])> + ExactSizeIterator {
    dump[6..4102].chunks_exact(128).enumerate()
}
