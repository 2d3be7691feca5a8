//! What a number of a call or of an answer is.

/// What an argument is, and so how many bytes it has. `U8s` and `F32s` are so many numbers with no length before them,
/// `Bytes` and `Floats` are slices with their length in two bytes.
#[derive(Clone, Copy, PartialEq, Debug)]
#[allow(dead_code)] // later groups use the rest
pub enum Kind {
    U8,
    Bool,
    U32,
    I32,
    U64,
    F32,
    U8s(usize),
    F32s(usize),
    Bytes,
    Floats,
}

impl Kind {
    /// The bytes of the argument that stands first in `from`, or of its two-byte length where the rest is not there
    /// yet.
    pub fn size(self, from: &[u8]) -> usize {
        let counted = |each: usize| match from {
            [low, high, ..] => 2 + each * u16::from_le_bytes([*low, *high]) as usize,
            _ => 2,
        };
        match self {
            Kind::U8 | Kind::Bool => 1,
            Kind::U32 | Kind::I32 | Kind::F32 => 4,
            Kind::U64 => 8,
            Kind::U8s(n) => n,
            Kind::F32s(n) => 4 * n,
            Kind::Bytes => counted(1),
            Kind::Floats => counted(4),
        }
    }

    /// As docs/ORACLE.md writes it.
    pub fn words(self) -> String {
        match self {
            Kind::U8s(n) => format!("{n} × u8"),
            Kind::F32s(n) => format!("{n} × f32"),
            Kind::Bytes => "bytes".to_string(),
            Kind::Floats => "floats".to_string(),
            _ => format!("{self:?}").to_lowercase(),
        }
    }
}

/// The arguments of a call, one by one.
pub fn split<'a>(kinds: &'a [Kind], mut bytes: &'a [u8]) -> impl Iterator<Item = (Kind, &'a [u8])> {
    kinds.iter().map(move |&kind| {
        let (argument, rest) = bytes.split_at(kind.size(bytes));
        bytes = rest;
        (kind, argument)
    })
}
