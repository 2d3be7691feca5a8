//! What an entry of the table is: its number, name and arguments, how they are drawn, and how the Rust answers.

pub mod draw;
pub mod pieces;
pub mod registers;
pub mod rust;
pub mod voice;

use crate::entry::draw::Draw;
use crate::entry::registers::Registers;
use crate::wire::answer::Answer;
use crate::wire::arguments::Arguments;
use crate::wire::kind::Kind;

pub struct Entry {
    pub number: u8,
    pub name: &'static str,
    pub arguments: &'static [Kind],
    /// The answer in the words of docs/ORACLE.md's table.
    pub says: &'static str,
    pub answer: fn(&mut Arguments, &mut Registers, &mut Answer),
    /// How arguments are made, where it is not each by its kind alone.
    pub draw: Option<fn(&mut Draw)>,
    /// The arguments of a script's first call of it, where they are written by hand.
    pub first: Option<fn(&mut Draw)>,
    /// Whether a random call of it comes now, where that is not always; where not, another entry is chosen.
    pub when: Option<fn(&mut Draw) -> bool>,
    /// The calls that go through all that is worth trying, where there is such a list.
    pub every: Option<Every>,
    /// Whether the answer depends on calls before, or calls after depend on this one.
    pub state: bool,
    /// How often it is called, beside 8 of an ordinary entry.
    pub weight: u32,
}

/// How many calls there are, and the arguments of each. A call may be begun anew as one of another entry, so that a list
/// can hold runs of calls over several.
pub struct Every {
    pub calls: u64,
    pub draw: fn(u64, &mut Draw),
}

/// A row: number, name, arguments, answer in words, and the answer.
pub const fn entry(
    number: u8,
    name: &'static str,
    arguments: &'static [Kind],
    says: &'static str,
    answer: fn(&mut Arguments, &mut Registers, &mut Answer),
) -> Entry {
    Entry {
        number,
        name,
        arguments,
        says,
        answer,
        draw: None,
        first: None,
        when: None,
        every: None,
        state: false,
        weight: 8,
    }
}

#[allow(dead_code)] // later groups use the rest
impl Entry {
    pub const fn drawn(self, draw: fn(&mut Draw)) -> Entry {
        Entry { draw: Some(draw), ..self }
    }

    pub const fn first(self, first: fn(&mut Draw)) -> Entry {
        Entry { first: Some(first), ..self }
    }

    pub const fn when(self, when: fn(&mut Draw) -> bool) -> Entry {
        Entry { when: Some(when), ..self }
    }

    pub const fn every(self, calls: u64, draw: fn(u64, &mut Draw)) -> Entry {
        Entry { every: Some(Every { calls, draw }), ..self }
    }

    pub const fn with_state(self) -> Entry {
        Entry { state: true, ..self }
    }

    pub const fn weight(self, weight: u32) -> Entry {
        Entry { weight, ..self }
    }
}

/// A call that is kept: its entry and all its bytes.
pub type Call = (&'static Entry, Vec<u8>);
