//! Rows and plans: the Rust compiles the row put in, and its calls are read one by one. Numbers 2, 3 and 4 and the
//! printer are not in the Rust; they are told here from the rules (docs/RULES.md).

use crate::entry::draw::Draw;
use crate::entry::registers::Registers;
use crate::entry::rust::put_row;
use crate::entry::{Entry, entry};
use crate::wire::answer::Answer;
use crate::wire::kind::Kind::{Bytes, U8, U8s, U32};
use plaits::fm::algorithms::{Algorithms, OPCODES_4_8, OPCODES_6_32};

const PLAN: &str = "u8 number, u8 operator named, plan: u8 count, 6 × (first, length, input, output, add)";

pub const ENTRIES: &[Entry] = &[
    entry(
        0x50,
        "compile",
        &[U8, Bytes, U32],
        "u8 number, u8 operator named, 6 × u8 row, plan",
        |given, registers, answer| {
            let (operators, table, row) = (given.u8() as usize, given.bytes(), given.usize());
            let fits = tabled(operators, &table, row);
            let compiled = if fits {
                planned(registers, operators, &table[row * operators..][..operators])
            } else {
                refused(2, 0)
            };
            let mut bytes = [0; 6];
            if compiled.number == 0 {
                bytes[..operators].copy_from_slice(&table[row * operators..][..operators]);
            }
            answer.name("number").u8(compiled.number);
            answer.name("operator").u8(compiled.at);
            answer.name("row").u8s(&bytes);
            compiled.write(answer);
        },
    )
    .drawn(|draw| {
        tables(draw);
    })
    .every(8 + 32, |nth, draw| {
        draw.u8(if nth < 8 { 4 } else { 6 });
        draw.bytes(&if nth < 8 { OPCODES_4_8.concat() } else { OPCODES_6_32.concat() });
        draw.u32(if nth < 8 { nth } else { nth - 8 } as u32);
    }),
    entry(0x51, "compile_row", &[U8, U8s(6)], PLAN, |given, registers, answer| {
        let (operators, row) = (given.u8() as usize, given.u8s::<6>());
        let planned = if counted(operators) { planned(registers, operators, &row[..operators]) } else { refused(2, 0) };
        answer.name("number").u8(planned.number);
        answer.name("operator").u8(planned.at);
        planned.write(answer);
    })
    .drawn(|draw| {
        let operators = operators(draw);
        draw.u8(operators);
        row(draw, 6).into_iter().for_each(|opcode| draw.u8(opcode));
    })
    .every(FOURS + SIXES, every_row),
    entry(0x52, "is_modulator", &[U8], "bool", |given, registers, answer| {
        let opcode = given.u8();
        registers.rows_4.opcodes[0][0] = opcode;
        answer.bool(registers.rows_4.is_modulator(0, 0));
    })
    .every(256, |nth, draw| draw.u8(nth as u8)),
    entry(0x53, "print", &[Bytes], "bytes, the printer's text", |given, registers, answer| {
        let row = given.bytes();
        answer.name("text").slice(text(registers, &row).as_bytes());
    })
    .drawn(|draw| {
        let length = if draw.one_in(8) { draw.below(12) as usize } else { draw.one_of(&[4, 6]) };
        let row = row(draw, length);
        draw.bytes(&row);
    })
    .every(1 << 20, |_, draw| {
        let length = draw.one_of(&[4, 6]);
        let row = row(draw, length);
        draw.bytes(&row);
    }),
    entry(0x54, "same_plan", &[U8s(31), U8s(31)], "bool", |given, _, answer| {
        let (one, other) = (normal(given.u8s()), normal(given.u8s()));
        answer.bool(one == other);
    })
    .drawn(two_plans),
    entry(0x55, "six_bytes", &[Bytes], "6 × u8, zeros behind the last", |given, _, answer| {
        let mut row = given.bytes();
        row.resize(6, 0);
        answer.u8s(&row);
    })
    .drawn(|draw| {
        let length = draw.below(10) as usize;
        let row = row(draw, length);
        draw.bytes(&row);
    }),
    entry(0x56, "opcodes", &[U8, U32], "u8 of the table for 4 or 6 operators, 0 past its end", |given, _, answer| {
        let table = match given.u8() {
            4 => OPCODES_4_8.concat(),
            6 => OPCODES_6_32.concat(),
            _ => Vec::new(),
        };
        answer.u8(table.get(given.usize()).copied().unwrap_or(0));
    })
    .drawn(|draw| {
        let operators = operators(draw);
        let place = if draw.one_in(8) { draw.any_u32() } else { draw.below(200) };
        draw.u8(operators);
        draw.u32(place);
    })
    .every(256 * 200, |nth, draw| {
        draw.u8((nth / 200) as u8);
        draw.u32((nth % 200) as u32);
    }),
    entry(0x70, "is_plan_of", &[U8, U8s(6), U8s(31)], "bool", |given, registers, answer| {
        let (operators, row, plan) = (given.u8() as usize, given.u8s::<6>(), normal(given.u8s()));
        let compiled = counted(operators).then(|| planned(registers, operators, &row[..operators]));
        answer.bool(compiled.is_some_and(|compiled| compiled.number == 0 && compiled.bytes() == plan));
    })
    .drawn(plans)
    .every((8 + 32) * CHANGES, every_plan),
    entry(0x71, "row_is_modulator", &[U8, Bytes, U32, U32], "u8 number, bool", |given, registers, answer| {
        let (operators, table, row, operator) = (given.u8() as usize, given.bytes(), given.usize(), given.usize());
        let fits = tabled(operators, &table, row) && operator < operators;
        let modulates = fits && {
            let opcodes = &table[row * operators..][..operators];
            match operators {
                4 => modulates(&mut registers.rows_4, row, opcodes.try_into().unwrap(), operator),
                _ => modulates(&mut registers.rows_6, row, opcodes.try_into().unwrap(), operator),
            }
        };
        answer.name("number").u8(if fits { 0 } else { 2 });
        answer.name("modulates").bool(modulates);
    })
    .drawn(|draw| {
        let operators = tables(draw) as u32;
        let operator = match draw.below(8) {
            0 => draw.any_u32(),
            1 => operators,
            _ => draw.below(operators),
        };
        draw.u32(operator);
    })
    .every(9 * 5 + 33 * 7, |nth, draw| {
        let (operators, nth) = if nth < 9 * 5 { (4, nth) } else { (6, nth - 9 * 5) };
        draw.u8(operators);
        draw.bytes(&if operators == 4 { OPCODES_4_8.concat() } else { OPCODES_6_32.concat() });
        draw.u32((nth / (operators as u64 + 1)) as u32);
        draw.u32((nth % (operators as u64 + 1)) as u32);
    }),
];

/// All rows of four that differ in meaningful bits, and so many rows of six.
const FOURS: u64 = 1 << 24;
const SIXES: u64 = 10_000_000;

/// A call as a plan has it: first operator, length, input, output, add.
pub type Call = [u8; 5];

/// A row's calls, or the number and operator of its refusal.
pub struct Planned {
    pub number: u8,
    pub at: u8,
    pub calls: Vec<Call>,
}

impl Planned {
    /// The plan's bytes, zero for a refused row.
    pub fn bytes(&self) -> [u8; 31] {
        let mut plan = [0; 31];
        plan[0] = self.calls.len() as u8;
        plan[1..].chunks_exact_mut(5).zip(&self.calls).for_each(|(place, call)| place.copy_from_slice(call));
        plan
    }

    fn write(&self, answer: &mut Answer) {
        answer.name("calls").u8(self.calls.len() as u8);
        for place in 0..6 {
            answer.name("call").u8s(self.calls.get(place).unwrap_or(&[0; 5]));
        }
    }
}

fn refused(number: u8, at: usize) -> Planned {
    Planned { number, at: at as u8, calls: Vec::new() }
}

pub fn counted(operators: usize) -> bool {
    operators == 4 || operators == 6
}

/// Whether 2 does not apply.
pub fn tabled(operators: usize, table: &[u8], row: usize) -> bool {
    let whole = counted(operators) && !table.is_empty() && table.len() % operators == 0;
    whole && table.len() / operators <= 32 && row < table.len() / operators
}

/// The plan of a row of 4 or 6 opcodes.
pub fn planned(registers: &mut Registers, operators: usize, row: &[u8]) -> Planned {
    match operators {
        4 => compiled(&mut registers.rows_4, row.try_into().unwrap()),
        _ => compiled(&mut registers.rows_6, row.try_into().unwrap()),
    }
}

/// The Rust's calls of a row, in order, up to the first that has no renderer or uses a scratch buffer that is not set.
fn compiled<const N: usize>(table: &mut Algorithms<N, 32>, row: [u8; N]) -> Planned {
    put_row(table, 0, row);
    let mut set = [true, false, false, false];
    let mut calls = Vec::new();
    let mut first = 0;
    while first < N {
        let call = &table.render_call[0][first];
        if call.render_fn.is_none() {
            return refused(3, first);
        }
        let (length, input, output) = (call.n as usize, call.input_index as usize, call.output_index as usize);
        let kind = match input {
            0 => -1,
            3 => length as i32 - 1,
            _ => -2,
        };
        assert_eq!(call.modulation_source, kind, "the renderer is not the one of this source");
        let reads = input == 1 || input == 2;
        if reads && !set[input] || call.additive && !set[output] {
            return refused(4, first);
        }
        set[output] = true;
        calls.push([first as u8, length as u8, input as u8, output as u8, call.additive as u8]);
        first += length;
    }
    Planned { number: 0, at: 0, calls }
}

/// Whether an operator of the row put in modulates others, as the Rust says it.
fn modulates<const N: usize>(table: &mut Algorithms<N, 32>, row: usize, opcodes: [u8; N], operator: usize) -> bool {
    put_row(table, row, opcodes);
    table.is_modulator(row as u32, operator as u32)
}

/// The printer's text for one raw row.
fn text(registers: &mut Registers, row: &[u8]) -> String {
    if !counted(row.len()) {
        return "refused 2\n".to_string();
    }
    let planned = planned(registers, row.len(), row);
    if planned.number != 0 {
        return format!("refused {} at {}\n", planned.number, planned.at);
    }
    let bytes: String = row.iter().map(|byte| format!(" {byte:02x}")).collect();
    let lines = planned.calls.iter().map(|[first, length, input, output, add]| {
        let source = ["none", "external", "external", "feedback"][*input as usize];
        format!("{first} {length} {source} {input} {output} {}\n", ["set", "add"][*add as usize])
    });
    format!("row{bytes}\ncalls {}\n{}", planned.calls.len(), lines.collect::<String>())
}

/// A plan's bytes with every bool 0 or 1.
fn normal(mut plan: [u8; 31]) -> [u8; 31] {
    plan[1..].chunks_exact_mut(5).for_each(|call| call[4] = (call[4] != 0) as u8);
    plan
}

fn operators(draw: &mut Draw) -> u8 {
    if draw.one_in(16) { draw.one_of(&[0, 1, 2, 3, 5, 7, 8, 255]) } else { draw.one_of(&[4, 6]) }
}

/// A row of so many opcodes: a built-in one with some bits turned, one that mostly reads what is set, or anything.
pub fn row(draw: &mut Draw, length: usize) -> Vec<u8> {
    match draw.below(4) {
        0 => (0..length).map(|_| draw.random() as u8).collect(),
        1 => {
            let (four, six) = (draw.one_of(&OPCODES_4_8), draw.one_of(&OPCODES_6_32));
            let mut row = if length == 4 { four.to_vec() } else { six.to_vec() };
            row.resize(length, 0);
            for _ in 0..draw.below(3).min(length as u32) {
                row[draw.below(length as u32) as usize] ^= 1 << draw.below(8);
            }
            row
        }
        _ => sensible(draw, length),
    }
}

/// Opcodes that mostly read and add to what an opcode before has written.
fn sensible(draw: &mut Draw, length: usize) -> Vec<u8> {
    let mut written = [true, false, false, false];
    let mut row = Vec::new();
    for _ in 0..length {
        let source = draw.below(4) as u8;
        let source = if (source == 1 || source == 2) && !written[source as usize] { 0 } else { source };
        let output = draw.below(4) as u8;
        let add = written[output as usize] && draw.one_in(2);
        let flagged = draw.one_in(if source == 3 { 1 } else { 3 }) && !draw.one_in(8);
        written[output as usize] = true;
        let ignored = if draw.one_in(4) { draw.random() as u8 & 0x88 } else { 0 };
        row.push(source << 4 | output | (add as u8) << 2 | (flagged as u8) << 6 | ignored);
    }
    row
}

/// Operators, which are handed back, a table of whole rows or nearly, and a row number in it or past it.
fn tables(draw: &mut Draw) -> u8 {
    let operators = operators(draw);
    let rows = draw.one_of(&[0, 1, 1, 2, 2, 3, 8, 31, 32, 33]);
    let width = if counted(operators as usize) { operators as usize } else { 4 };
    let mut table: Vec<u8> = (0..rows).flat_map(|_| row(draw, width)).collect();
    if draw.one_in(8) {
        table.extend((0..draw.below(width as u32)).map(|_| 0));
    }
    let place = match draw.below(8) {
        0 => draw.any_u32(),
        1 => rows as u32,
        _ => draw.below(rows as u32 + 1).saturating_sub(draw.below(2)),
    };
    draw.u8(operators);
    draw.bytes(&table);
    draw.u32(place);
    operators
}

/// A row's plan as the Rust compiles it; zeros for operators other than 4 and 6.
fn plan_of(operators: u8, row: &[u8]) -> Planned {
    match operators {
        4 => compiled(&mut Algorithms::<4, 32>::new(), row[..4].try_into().unwrap()),
        6 => compiled(&mut Algorithms::<6, 32>::new(), row[..6].try_into().unwrap()),
        _ => refused(2, 0),
    }
}

/// Operators, a row that is mostly accepted, and its plan; half of them with a byte or an opcode's bit changed.
fn plans(draw: &mut Draw) {
    let operators = operators(draw);
    let mut row = row(draw, 6);
    for _ in 0..4 {
        if plan_of(operators, &row).number != 0 {
            row = sensible(draw, 6);
        }
    }
    let mut plan = plan_of(operators, &row).bytes();
    match draw.below(4) {
        0 => plan[draw.below(31) as usize] = draw.any_u8(),
        1 => row[draw.below(6) as usize] ^= 1 << draw.below(8),
        _ => (),
    }
    draw.u8(operators);
    row.into_iter().chain(plan).for_each(|byte| draw.u8(byte));
}

/// A row and its plan as they are, and with each of their bits changed.
const CHANGES: u64 = 1 + 8 * (6 + 31);

/// The built-in rows with their plans, and all these changes.
fn every_plan(nth: u64, draw: &mut Draw) {
    let (place, change) = ((nth / CHANGES) as usize, (nth % CHANGES) as usize);
    let operators = if place < 8 { 4 } else { 6 };
    let mut row = if place < 8 { OPCODES_4_8[place].to_vec() } else { OPCODES_6_32[place - 8].to_vec() };
    row.resize(6, 0);
    let plan = plan_of(operators, &row).bytes();
    let mut bytes: Vec<u8> = row.into_iter().chain(plan).collect();
    if change > 0 {
        bytes[(change - 1) / 8] ^= 1 << ((change - 1) % 8);
    }
    draw.u8(operators);
    bytes.into_iter().for_each(|byte| draw.u8(byte));
}

/// Two plans, mostly equal but for at most one byte.
fn two_plans(draw: &mut Draw) {
    let plan: Vec<u8> = (0..31).map(|_| draw.below(4) as u8).collect();
    let mut other = plan.clone();
    if draw.one_in(2) {
        let place = draw.below(31) as usize;
        other[place] = draw.any_u8();
    }
    plan.into_iter().chain(other).for_each(|byte| draw.u8(byte));
}

/// The rows of four with all meaningful bits, the ignored ones made of them; then rows of six.
fn every_row(nth: u64, draw: &mut Draw) {
    if nth >= FOURS {
        draw.u8(6);
        row(draw, 6).into_iter().for_each(|opcode| draw.u8(opcode));
        return;
    }
    draw.u8(4);
    for place in 0..4 {
        let bits = (nth >> (6 * place)) as u8;
        let ignored = (nth.wrapping_mul(0x9e37_79b9) >> (8 * place)) as u8 & 0x88;
        draw.u8(bits & 7 | (bits >> 3 & 7) << 4 | ignored);
    }
    draw.u8(0);
    draw.u8(0);
}
