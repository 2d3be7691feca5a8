//! Random arguments that dwell on edges.

use crate::entry::pieces::Sending;
use crate::wire::kind::Kind;

/// Powers of two at which casts, roundings and exponents change.
const POWERS: [i32; 29] = [
    -149, -148, -127, -126, -125, -32, -24, -23, -9, -2, -1, 0, 1, 2, 5, 8, 22, 23, 24, 25, 30, 31, 32, 33, 62, 63, 64,
    126, 127,
];

/// Numbers that a test of the Rust compares with, or that end a range (docs/RULES.md).
const TESTS: [f32; 24] = [
    0.02, 0.3, 0.5, 0.98, 0.99, 1.0, 1.25, 2.0, 4.0, 6.7, 12.0, 15.0, 18.0, 32.0, 48.0, 99.0, 100.0, 120.0, 126.0,
    127.0, 128.0, 240.0, 8_000.0, 192_000.0,
];

/// Zeros, subnormals, the smallest and largest numbers, infinities, and NaNs of several payloads (by their bits).
#[rustfmt::skip]
const SPECIALS: [u32; 16] = [
    0, 1, 2, 0x007f_ffff, 0x0080_0000, 0x0080_0001, 0x3f80_0000, 0x7f7f_fffe,
    0x7f7f_ffff, 0x7f80_0000, 0x7f80_0001, 0x7fa0_0000, 0x7fbf_ffff, 0x7fc0_0000, 0x7fc0_0001, 0x7fff_ffff,
];

/// The quiet NaN in a signalling NaN's place. Rust's `min` and `max` treat the two alike on some machines only.
pub fn quiet(x: f32) -> f32 {
    if x.is_nan() { f32::from_bits(x.to_bits() | 0x0040_0000) } else { x }
}

/// The randomness of a script (splitmix64), the call that is being made, and what later calls go on from.
pub struct Draw {
    state: u64,
    gate: bool,
    call: Vec<u8>,
    pub sending: Sending,
}

#[allow(dead_code)] // later groups use the rest
impl Draw {
    pub fn new(seed: u64) -> Self {
        Draw { state: seed, gate: false, call: Vec::new(), sending: Sending::default() }
    }

    /// A call of this entry begins; its arguments follow.
    pub fn begin(&mut self, number: u8) {
        self.call.clear();
        self.call.push(number);
    }

    /// The bytes of the call so far.
    pub fn call(&self) -> &[u8] {
        &self.call
    }

    pub fn random(&mut self) -> u64 {
        self.state = self.state.wrapping_add(0x9e37_79b9_7f4a_7c15);
        let z = (self.state ^ (self.state >> 30)).wrapping_mul(0xbf58_476d_1ce4_e5b9);
        let z = (z ^ (z >> 27)).wrapping_mul(0x94d0_49bb_1331_11eb);
        z ^ (z >> 31)
    }

    /// A number below `n`.
    pub fn below(&mut self, n: u32) -> u32 {
        (((self.random() >> 32) * n as u64) >> 32) as u32
    }

    pub fn one_in(&mut self, n: u32) -> bool {
        self.below(n) == 0
    }

    pub fn one_of<T: Copy>(&mut self, list: &[T]) -> T {
        list[self.below(list.len() as u32) as usize]
    }

    /// A gate that mostly stays as it was drawn last.
    pub fn gate(&mut self) -> bool {
        self.gate ^= self.one_in(8);
        self.gate
    }

    /// A field from 0 to `most`, both ends often.
    pub fn field(&mut self, most: u8) -> u8 {
        match self.below(8) {
            0 => 0,
            1 => most,
            _ => self.below(most as u32 + 1) as u8,
        }
    }

    /// A field from 0 to `most`, or now and then above it.
    pub fn field_or_past(&mut self, most: u8) -> u8 {
        match self.below(8) {
            0 => most.saturating_add(1),
            1 => self.any_u8(),
            _ => self.field(most),
        }
    }

    pub fn any_u8(&mut self) -> u8 {
        if self.one_in(4) { self.one_of(&[0, 1, 63, 64, 126, 127, 128, 254, 255]) } else { self.below(256) as u8 }
    }

    pub fn any_u32(&mut self) -> u32 {
        match self.below(8) {
            0 | 1 => (1u32 << self.below(32)).wrapping_add(self.below(7)).wrapping_sub(3),
            2 => self.below(300),
            3 => u32::MAX - self.below(300),
            4 => self.between_floats(),
            5 => self.any_f32().to_bits(),
            _ => self.random() as u32,
        }
    }

    /// A whole number that lies between two neighbouring f32, often in their very middle.
    fn between_floats(&mut self) -> u32 {
        let gap = 1 + self.below(8);
        let low = (self.below(1 << 24) | 1 << 23) << gap;
        low.wrapping_add(1 << (gap - 1)).wrapping_add(self.below(3)).wrapping_sub(1)
    }

    /// Any f32: mostly at the edges above, else of every size.
    pub fn any_f32(&mut self) -> f32 {
        let sign = (self.random() as u32) & 0x8000_0000;
        let positive = match self.below(16) {
            0 | 1 => f32::from_bits(self.one_of(&SPECIALS)),
            2..=5 => {
                let power = self.one_of(&POWERS);
                self.near(2f64.powi(power) as f32)
            }
            6 => {
                let test = self.one_of(&TESTS);
                self.near(test)
            }
            7 => self.below(300) as f32,
            8 => self.below(300) as f32 + self.one_of(&[0.01, 0.25, 0.5, 0.75, 0.99]),
            9 => self.unit(),
            10 => self.unit() * self.one_of(&[0.01, 4.0, 32.0, 127.0, 240.0, 1e5, 1e10, 1e19]),
            11 => self.random() as u32 as f32,
            12 => f32::from_bits(self.random() as u32 & 0x007f_ffff),
            13 => f32::from_bits(self.random() as u32 & 0x007f_ffff | 0x7f80_0000),
            _ => f32::from_bits(self.random() as u32 & 0x7fff_ffff),
        };
        f32::from_bits(positive.to_bits() ^ sign)
    }

    pub fn quiet_f32(&mut self) -> f32 {
        quiet(self.any_f32())
    }

    /// A number from 0 to 1, both included.
    pub fn unit(&mut self) -> f32 {
        self.below(1 << 24) as f32 / ((1 << 24) - 1) as f32
    }

    /// A number at most four steps from `x` among the f32 of its sign.
    pub fn near(&mut self, x: f32) -> f32 {
        let size = (x.to_bits() & 0x7fff_ffff) as i32 + self.below(9) as i32 - 4;
        f32::from_bits(size.max(0) as u32 | x.to_bits() & 0x8000_0000)
    }

    pub fn u8(&mut self, x: u8) {
        self.call.push(x);
    }

    pub fn u32(&mut self, x: u32) {
        self.call.extend(x.to_le_bytes());
    }

    pub fn f32(&mut self, x: f32) {
        self.u32(x.to_bits());
    }

    pub fn bytes(&mut self, xs: &[u8]) {
        self.call.extend((xs.len() as u16).to_le_bytes());
        self.call.extend(xs);
    }

    pub fn floats(&mut self, xs: &[f32]) {
        self.call.extend((xs.len() as u16).to_le_bytes());
        xs.iter().for_each(|&x| self.f32(x));
    }

    /// An argument by its kind alone.
    pub fn by_kind(&mut self, kind: Kind) {
        let length = self.one_of(&[0, 1, 2, 3, 4, 8, 127, 128, 129]);
        match kind {
            Kind::U8 => {
                let x = self.any_u8();
                self.u8(x);
            }
            Kind::Bool => {
                let x = self.one_of(&[0, 1, 0, 1, 0, 1, 2, 255]);
                self.u8(x);
            }
            Kind::U32 | Kind::I32 => {
                let x = self.any_u32();
                self.u32(x);
            }
            Kind::U64 => {
                self.by_kind(Kind::U32);
                self.by_kind(Kind::U32);
            }
            Kind::F32 => {
                let x = self.any_f32();
                self.f32(x);
            }
            Kind::U8s(n) => (0..n).for_each(|_| self.by_kind(Kind::U8)),
            Kind::F32s(n) => (0..n).for_each(|_| self.by_kind(Kind::F32)),
            Kind::Bytes => {
                self.call.extend((length as u16).to_le_bytes());
                self.by_kind(Kind::U8s(length));
            }
            Kind::Floats => {
                self.call.extend((length as u16).to_le_bytes());
                self.by_kind(Kind::F32s(length));
            }
        }
    }
}
