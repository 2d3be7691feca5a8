//! Dumps that come in pieces: not in the Rust, written here from request c's words. What the end says is said by the
//! reader that gets the dump whole (`bank.rs`).

use crate::entry::draw::Draw;
use crate::entry::pieces::{Reader, Sending};
use crate::entry::registers::Registers;
use crate::entry::{Entry, entry};
use crate::groups::bank::{DUMPS, damaged, part, sound, validate};
use crate::wire::answer::Answer;
use crate::wire::arguments::Arguments;
use crate::wire::kind::Kind::Bytes;
use std::iter::repeat_n;

const OPEN: u8 = 0x98;
const TAKE: u8 = 0x99;
const END: u8 = 0x9a;

pub const ENTRIES: &[Entry] = &[
    entry(OPEN, "slow_open", &[], FRESH, |_, registers, _| registers.reader = Reader::default())
        .drawn(|draw| {
            let kind = any_kind(draw);
            draw.sending = Sending { dump: dump(kind, draw), ..Sending::default() };
        })
        .when(|draw| comes(draw, 100, 8, 1))
        .every(calls(CUTS, 36), |nth, draw| run(nth, 36, draw, cut))
        .with_state()
        .weight(2),
    entry(TAKE, "slow_take", &[Bytes], TAKEN, |given, registers, answer| {
        let (piece, reader) = (given.bytes(), &mut registers.reader);
        let (taken, slot) = if reader.ended { (0, None) } else { reached(reader.taken.len(), piece.len()) };
        reader.taken.extend(&piece[..taken]);
        reader.taken.truncate(4105);
        answer.name("number").u8(if reader.ended { 9 } else { 0 });
        answer.name("bytes taken").u32(taken as u32);
        answer.name("a patch is complete").bool(slot.is_some());
        answer.name("slot").u8(slot.unwrap_or(0) as u8);
        answer.name("patch").u8s(slot.map_or(&[0; 128], |slot| &reader.taken[6 + 128 * slot..][..128]));
    })
    .drawn(|draw| {
        let piece = piece(draw);
        send(draw, &piece);
    })
    .first(|draw| {
        draw.sending = Sending { dump: by_hand(), ..Sending::default() };
        send(draw, &by_hand()[..137]);
    })
    .when(|draw| comes(draw, 1, 4, 1))
    .every(calls(BYTEWISE, 12_300) + calls(EVEN, 230), every_size)
    .with_state(),
    entry(END, "slow_end", &[], "u8 number, u8 channel", |_, registers, answer| {
        let reader = &mut registers.reader;
        let number = if reader.ended { 9 } else { validate(&reader.taken) };
        reader.ended = true;
        answer.name("number").u8(number);
        answer.name("channel").u8(if number == 0 { reader.taken[2] } else { 0 });
    })
    .drawn(|draw| draw.sending.ended = true)
    .when(|draw| comes(draw, 100, 1, 3))
    .every(calls(ENDS, 36), |nth, draw| run(nth, 36, draw, patch_by_patch))
    .with_state()
    .weight(2),
];

const FRESH: &str = "nothing: a fresh reader, which is also what stands there at the start";
const TAKEN: &str = "u8 number, u32 bytes taken, bool a patch is complete, u8 its slot, 128 × u8 its bytes";

/// How many bytes of a piece a reader takes that has taken so many before, and the slot of the patch that is then
/// complete: it stops behind the next of the 32, and else takes all.
fn reached(before: usize, piece: usize) -> (usize, Option<usize>) {
    let slot = (0..32).find(|slot| before < 6 + 128 * (slot + 1));
    let missing = slot.map_or(usize::MAX, |slot| 6 + 128 * (slot + 1) - before);
    if missing <= piece { (missing, slot) } else { (piece, None) }
}

/// The kinds of dumps. The first 54 have every set of faults: one byte short or long; one of the first six bytes or the
/// last one wrong; a data byte above 127; a wrong checksum or one above 127. Then short by thousands, long by
/// thousands, of any bytes, and empty.
const SETS: u64 = 3 * 3 * 2 * 3;

/// A sound dump, those with one fault, and the last four kinds.
const PLAIN: [u64; 12] = [0, 1, 2, 3, 9, 18, 6, 36, SETS, SETS + 1, SETS + 2, SETS + 3];

/// A dump of a kind, on any channel.
fn dump(kind: u64, draw: &mut Draw) -> Vec<u8> {
    let channel = draw.below(16) as u8;
    let mut dump = sound(draw, channel);
    match kind.checked_sub(SETS) {
        None => faults(kind, &mut dump, draw),
        Some(0) => dump.truncate(draw.below(3104) as usize),
        Some(1) => dump.resize(5104 + draw.below(1000) as usize, 0xf7),
        Some(2) => dump.iter_mut().for_each(|byte| *byte = draw.any_u8()),
        _ => dump.clear(),
    }
    dump
}

/// A kind that is mostly sound or has one fault.
fn any_kind(draw: &mut Draw) -> u64 {
    match draw.below(16) {
        0..7 => 0,
        7 => draw.random() % SETS,
        8 => 9,
        9 => 18,
        _ => draw.one_of(&PLAIN),
    }
}

/// Puts a set of faults into a sound dump.
fn faults(set: u64, dump: &mut Vec<u8>, draw: &mut Draw) {
    match set / 18 {
        0 => (),
        1 => dump[4102] = (dump[4102] + 1 + draw.below(127) as u8) % 128,
        _ => dump[4102] |= 0x80,
    }
    if set / 9 % 2 == 1 {
        dump[6 + draw.below(4096) as usize] |= 0x80;
    }
    match set / 3 % 3 {
        0 => (),
        1 => dump[draw.below(6) as usize] ^= 0x10,
        _ => dump[4103] = draw.below(0xf7) as u8,
    }
    dump.resize([4104, 4103, 4105][(set % 3) as usize], 0xf7);
}

/// Whether a call comes now: one in so many while a dump is under way, where all of it is taken, and after the end.
fn comes(draw: &mut Draw, under_way: u32, all_taken: u32, ended: u32) -> bool {
    let often = match () {
        _ if draw.sending.ended => ended,
        _ if draw.sending.rest().is_empty() => all_taken,
        _ => under_way,
    };
    draw.one_in(often)
}

/// The piece of a call; what the reader takes of it is noted.
fn send(draw: &mut Draw, piece: &[u8]) {
    if !draw.sending.ended {
        draw.sending.taken += reached(draw.sending.taken, piece.len()).0;
    }
    draw.bytes(piece);
}

/// The next bytes of the dump: up to about where the reader stops, up to some way behind that, or so many as there are
/// edges; now and then all of them, or all and more.
fn piece(draw: &mut Draw) -> Vec<u8> {
    let mut rest = draw.sending.rest().to_vec();
    let stop = reached(draw.sending.taken, rest.len()).0;
    let size = match draw.below(32) {
        0..8 => stop.saturating_sub(1) + draw.below(3) as usize,
        8..18 => stop + draw.below(300) as usize,
        18..30 => draw.one_of(&[0, 0, 1, 2, 5, 6, 7, 64, 127, 128, 129, 134, 135, 262, 1000]),
        30 => rest.len(),
        _ => {
            let more = draw.one_of(&[1, 2, 128, 1000, 5000]);
            rest.extend((0..more).map(|_| draw.any_u8()));
            rest.len()
        }
    };
    rest.truncate(size);
    rest
}

/// The calls of so many runs. A run is a fresh reader, so many pieces, the end, a piece after it, a second end, and an
/// empty piece.
const fn calls(runs: u64, pieces: u64) -> u64 {
    runs * (pieces + 5)
}

/// A dump and the places where it is cut.
type Cut = (Vec<u8>, Vec<usize>);

/// The nth call of runs. What a reader leaves of a piece is given again; pieces that are left over are empty.
fn run(nth: u64, pieces: u64, draw: &mut Draw, cut: fn(u64, &mut Draw) -> Cut) {
    let (run, step) = (nth / (pieces + 5), nth % (pieces + 5));
    if step == 0 {
        let (dump, cuts) = cut(run, draw);
        draw.sending = Sending { dump, cuts: cuts.into(), ..Sending::default() };
        draw.begin(OPEN);
    } else if step <= pieces {
        draw.begin(TAKE);
        next_piece(draw);
    } else if step == pieces + 1 || step == pieces + 3 {
        assert_eq!(draw.sending.taken, draw.sending.dump.len(), "run {run} has too few pieces");
        draw.sending.ended = true;
        draw.begin(END);
    } else {
        let size = if step == pieces + 2 { 134 } else { 0 };
        let after: Vec<u8> = draw.sending.dump.iter().copied().take(size).collect();
        draw.begin(TAKE);
        send(draw, &after);
    }
}

/// What is left of the dump up to the next cut; where the reader takes all of it, the cut is done.
fn next_piece(draw: &mut Draw) {
    let Sending { dump, cuts, taken, .. } = &draw.sending;
    let end = cuts.front().map_or(dump.len(), |cut| dump.len().min(*cut));
    let piece = dump[*taken..end].to_vec();
    send(draw, &piece);
    if draw.sending.taken == end {
        draw.sending.cuts.pop_front();
    }
}

/// A sound dump and one of each fault, cut in two at every place from 0 to 4,105; and sound and long ones and ones with
/// a byte above 127, cut in three at every pair of places near an edge, an empty piece between two that are the same.
const PLACES: u64 = 4106;
const PAIRS: u64 = 101 * 102 / 2;
const CUTS: u64 = 6 * PLACES + 3 * PAIRS;

/// The ends of the frame and of each patch, with their neighbours, and all from 4,101 to 4,105.
fn edges() -> Vec<usize> {
    let patches = (0..32).map(|slot| 6 + 128 * slot).flat_map(|start| start - 1..=start + 1);
    patches.chain(4101..=4105).collect()
}

fn cut(run: u64, draw: &mut Draw) -> Cut {
    let Some(pair) = run.checked_sub(6 * PLACES) else {
        return (dump(PLAIN[(run / PLACES) as usize], draw), vec![(run % PLACES) as usize]);
    };
    let edges = edges();
    let mut pairs = edges.iter().enumerate().flat_map(|(place, one)| edges[place..].iter().map(|other| [*one, *other]));
    let cuts = pairs.nth((pair % PAIRS) as usize).expect("there are so many pairs");
    (dump([0, 2, 9][(pair / PAIRS) as usize], draw), cuts.to_vec())
}

/// Each plain kind byte by byte, without and with an empty piece behind each byte; and each in pieces of every size
/// from 64 to 263, with empty ones between them.
const BYTEWISE: u64 = 2 * 12;
const EVEN: u64 = 200 * 12;

/// A cut behind every so many bytes, each so many times.
fn multiples(size: u64, times: u64) -> Vec<usize> {
    (1..=6104 / size).flat_map(|turn| repeat_n((turn * size) as usize, times as usize)).collect()
}

fn plain(run: u64, draw: &mut Draw) -> Vec<u8> {
    dump(PLAIN[(run % 12) as usize], draw)
}

fn every_size(nth: u64, draw: &mut Draw) {
    match nth.checked_sub(calls(BYTEWISE, 12_300)) {
        None => run(nth, 12_300, draw, |run, draw| (plain(run, draw), multiples(1, 1 + run / 12))),
        Some(nth) => run(nth, 230, draw, |run, draw| (plain(run, draw), multiples(64 + run / 12, 2))),
    }
}

/// All that `bank.rs` lists of damaged dumps; every set of faults, eight times; every length from 0 to 4,299, and some
/// at which small counts wrap. Cut behind each patch.
const LONG: [usize; 8] = [5_104, 8_192, 8_208, 20_000, 32_768, 65_535, 65_536, 4_104 + 65_536];
const ENDS: u64 = DUMPS + 8 * SETS + 4300 + LONG.len() as u64;

fn patch_by_patch(run: u64, draw: &mut Draw) -> Cut {
    let channel = draw.below(16) as u8;
    let mut dump = sound(draw, channel);
    let (sets, lengths) = (run.checked_sub(DUMPS), run.checked_sub(DUMPS + 8 * SETS));
    match (sets, lengths) {
        (None, _) => dump = damaged(run, dump),
        (Some(set), None) => faults(set % SETS, &mut dump, draw),
        (_, Some(length @ 0..4300)) => dump.resize(length as usize, 0xf7),
        (_, Some(long)) => dump.resize(LONG[long as usize - 4300], 0xf7),
    }
    let patches = (1..=32).map(|patches| 6 + 128 * patches);
    (dump, patches.chain([24_000, 44_000, 64_000]).collect())
}

/// A sound dump by hand, on channel 5: 32 patches of the bytes 0 to 127. Each of them sums up to 63.5 times 128, so the
/// checksum is 0.
fn by_hand() -> Vec<u8> {
    let patches = (0..32).flat_map(|_| 0..128);
    [0xf0, 0x43, 0x05, 0x09, 0x20, 0x00].into_iter().chain(patches).chain([0x00, 0xf7]).collect()
}

/// A reader of its own, and what it answers.
struct Asked(Registers);

impl Asked {
    fn call(&mut self, number: u8, arguments: &[u8]) -> Vec<u8> {
        let mut answer = Answer::default();
        (ENTRIES[(number - OPEN) as usize].answer)(&mut Arguments(arguments), &mut self.0, &mut answer);
        answer.bytes
    }

    fn take(&mut self, piece: &[u8]) -> Vec<u8> {
        self.call(TAKE, &[&(piece.len() as u16).to_le_bytes(), piece].concat())
    }
}

/// The answers to the dump by hand are those written here.
pub fn agrees_with_hand() -> bool {
    let (dump, patch) = (by_hand(), Vec::from_iter(0..128));
    let complete = |slot: u8, taken: u8| [&[0, taken, 0, 0, 0, 1, slot], &patch[..]].concat();
    let nothing = |number: u8, taken: u8| [&[number, taken, 0, 0, 0, 0, 0], &[0; 128][..]].concat();
    let mut asked = Asked(Registers::new());
    let early = asked.take(&dump[..137]) == complete(0, 134)
        && asked.take(&dump[134..137]) == nothing(0, 3)
        && asked.take(&[]) == nothing(0, 0)
        && asked.call(END, &[]) == [10, 0]
        && asked.call(END, &[]) == [9, 0]
        && asked.take(&dump[137..]) == nothing(9, 0)
        && asked.take(&[]) == nothing(9, 0);
    early
        && asked.call(OPEN, &[]).is_empty()
        && asked.take(&dump) == complete(0, 134)
        && (1..32).all(|slot| asked.take(&dump[6 + 128 * slot..]) == complete(slot as u8, 128))
        && asked.take(&dump[4102..]) == nothing(0, 2)
        && asked.call(END, &[]) == [0, 5]
        && asked.call(END, &[]) == [9, 0]
}

/// However a dump is cut, the patches that are reported are its full runs of 128 bytes from the seventh byte on, 32 at
/// most and in order, in a sound dump the bank's own, and the end is the whole reader's. Tried so often.
pub fn agrees_with_whole(turns: u64) -> bool {
    let (mut draw, mut asked) = (Draw::new(1), Asked(Registers::new()));
    (0..turns).all(|_| {
        let kind = any_kind(&mut draw);
        let dump = dump(kind, &mut draw);
        let number = validate(&dump);
        let whole: Vec<&[u8]> = dump.get(6..).unwrap_or_default().chunks_exact(128).take(32).collect();
        let own = (0..32).map(|slot| part(&dump, slot));
        asked.call(OPEN, &[]);
        reported(&mut asked, &dump, &mut draw) == whole
            && (number != 0 || own.eq(whole))
            && asked.call(END, &[]) == [number, if number == 0 { dump[2] } else { 0 }]
            && asked.call(END, &[]) == [9, 0]
    })
}

/// The patches that are reported while a dump is sent in pieces; what is left of a piece is given again.
fn reported(asked: &mut Asked, dump: &[u8], draw: &mut Draw) -> Vec<Vec<u8>> {
    let mut reported = Vec::new();
    let (mut at, mut end) = (0, 0);
    loop {
        let answer = asked.take(&dump[at..end]);
        let taken = u32::from_le_bytes([answer[1], answer[2], answer[3], answer[4]]) as usize;
        assert!(answer[0] == 0 && taken <= end - at && (taken > 0 || at == end), "the number or the bytes taken");
        at += taken;
        if answer[5] == 1 {
            assert_eq!(answer[6] as usize, reported.len(), "the slot");
            reported.push(answer[7..].to_vec());
        }
        if at == dump.len() {
            return reported;
        }
        if at == end {
            let most = draw.one_of(&[2, 8, 130, 300, 7000]);
            end = dump.len().min(at + draw.below(most) as usize);
        }
    }
}

#[test]
fn pieces_and_whole() {
    assert!(agrees_with_hand());
    assert!(agrees_with_whole(20_000));
}
