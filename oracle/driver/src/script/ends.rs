//! Scripts with an odd end: empty, cut short, or naming an unknown entry; each with the closing line that it must get.

use crate::entry::Entry;
use crate::entry::draw::Draw;
use crate::script::generate::Generator;
use crate::table::by_number;

/// Three entries are cut at every byte (of their first 64), each other entry at one.
pub fn odd_ends(seed: u64, chosen: &[&'static Entry]) -> Vec<(Vec<u8>, String)> {
    let mut draw = Draw::new(!seed);
    let mut script = Generator::new(!seed, chosen);
    let calls: Vec<Vec<u8>> = chosen.iter().map(|_| script.next().1.to_vec()).collect();
    let mut list = vec![(Vec::new(), "script ended after 0 calls\n".to_string())];

    let everywhere: [u32; 3] = std::array::from_fn(|_| draw.below(calls.len() as u32));
    for (place, call) in calls.iter().enumerate().filter(|(_, call)| call.len() > 1) {
        let one = 1 + draw.below(call.len() as u32 - 1) as usize;
        let cuts = if everywhere.contains(&(place as u32)) { 1..call.len().min(65) } else { one..one + 1 };
        for cut in cuts {
            let (script, number) = after_some(&mut draw, &calls, &call[..cut]);
            list.push((script, format!("script cut short in call {number}\n")));
        }
    }

    let table = by_number();
    let unknown: Vec<u8> = (0..=255).filter(|&number| table[number as usize].is_none()).collect();
    for entry in [0, b's', 255].into_iter().chain((0..5).map(|_| draw.one_of(&unknown)).collect::<Vec<u8>>()) {
        let (script, number) = after_some(&mut draw, &calls, &[entry, 1, 2]);
        list.push((script, format!("script names unknown entry {entry} in call {number}\n")));
    }
    list
}

/// None to two whole calls, then the end; and the number of the call that the end is.
fn after_some(draw: &mut Draw, calls: &[Vec<u8>], end: &[u8]) -> (Vec<u8>, usize) {
    let before = draw.below(3) as usize;
    let mut script = Vec::new();
    for _ in 0..before {
        script.extend(&calls[draw.below(calls.len() as u32) as usize]);
    }
    script.extend(end);
    (script, before + 1)
}
