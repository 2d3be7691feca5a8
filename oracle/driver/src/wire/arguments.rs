//! The arguments of a call, read one after the other.

use std::hint::black_box;

/// The arguments of a call as an entry takes them. The compiler can't see through them, so nothing is folded.
pub struct Arguments<'a>(pub &'a [u8]);

#[allow(dead_code)] // later groups use the rest
impl Arguments<'_> {
    fn take<const N: usize>(&mut self) -> [u8; N] {
        let (taken, rest) = self.0.split_first_chunk().expect("an entry reads more than its kinds say");
        self.0 = rest;
        black_box(*taken)
    }

    pub fn u8(&mut self) -> u8 {
        u8::from_le_bytes(self.take())
    }

    pub fn bool(&mut self) -> bool {
        self.u8() != 0
    }

    pub fn u32(&mut self) -> u32 {
        u32::from_le_bytes(self.take())
    }

    pub fn usize(&mut self) -> usize {
        self.u32() as usize
    }

    pub fn i32(&mut self) -> i32 {
        i32::from_le_bytes(self.take())
    }

    pub fn u64(&mut self) -> u64 {
        u64::from_le_bytes(self.take())
    }

    pub fn f32(&mut self) -> f32 {
        f32::from_bits(self.u32())
    }

    pub fn u8s<const N: usize>(&mut self) -> [u8; N] {
        self.take()
    }

    pub fn f32s<const N: usize>(&mut self) -> [f32; N] {
        std::array::from_fn(|_| self.f32())
    }

    fn length(&mut self) -> usize {
        u16::from_le_bytes(self.take()) as usize
    }

    pub fn bytes(&mut self) -> Vec<u8> {
        (0..self.length()).map(|_| self.u8()).collect()
    }

    pub fn floats(&mut self) -> Vec<f32> {
        (0..self.length()).map(|_| self.f32()).collect()
    }
}
