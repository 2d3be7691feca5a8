//! The answer of a call, written number by number.

use crate::wire::kind::Kind;

/// Every NaN is written so.
pub const NAN: u32 = 0x7fc0_0000;

/// What a number of an answer is: its place, its kind and, where it was given one, its name.
pub struct Mark {
    pub at: usize,
    pub kind: Kind,
    pub name: &'static str,
}

/// The answer of a call. Where it is marked it also keeps what each number of it is, for people.
#[derive(Default)]
pub struct Answer {
    pub bytes: Vec<u8>,
    pub marks: Option<Vec<Mark>>,
    name: &'static str,
}

#[allow(dead_code)] // later groups use the rest
impl Answer {
    /// An answer that keeps its marks.
    pub fn marked() -> Self {
        Answer { marks: Some(Vec::new()), ..Answer::default() }
    }

    /// Names what is written from here on, as a report shall call it: `answer.name("phase").f32(x)`.
    pub fn name(&mut self, name: &'static str) -> &mut Self {
        self.name = name;
        self
    }

    fn put(&mut self, kind: Kind, bytes: &[u8]) {
        if let Some(marks) = &mut self.marks {
            marks.push(Mark { at: self.bytes.len(), kind, name: self.name });
        }
        self.bytes.extend_from_slice(bytes);
    }

    pub fn u8(&mut self, x: u8) {
        self.put(Kind::U8, &[x]);
    }

    pub fn bool(&mut self, x: bool) {
        self.put(Kind::Bool, &[x as u8]);
    }

    pub fn u32(&mut self, x: u32) {
        self.put(Kind::U32, &x.to_le_bytes());
    }

    pub fn i32(&mut self, x: i32) {
        self.put(Kind::I32, &x.to_le_bytes());
    }

    pub fn u64(&mut self, x: u64) {
        self.put(Kind::U64, &x.to_le_bytes());
    }

    pub fn f32(&mut self, x: f32) {
        let bits = if x.is_nan() { NAN } else { x.to_bits() };
        self.put(Kind::F32, &bits.to_le_bytes());
    }

    pub fn u8s(&mut self, xs: &[u8]) {
        xs.iter().for_each(|&x| self.u8(x));
    }

    pub fn f32s(&mut self, xs: &[f32]) {
        xs.iter().for_each(|&x| self.f32(x));
    }

    fn length(&mut self, length: usize) {
        let short = u16::try_from(length).expect("a slice of an answer is longer than two bytes can say");
        self.put(Kind::U8s(2), &short.to_le_bytes());
    }

    pub fn slice(&mut self, xs: &[u8]) {
        self.length(xs.len());
        self.u8s(xs);
    }

    pub fn floats(&mut self, xs: &[f32]) {
        self.length(xs.len());
        self.f32s(xs);
    }
}
