//! The numbers: Rust's casts, wrapped sums and float helpers as the FM part uses them.

use crate::entry::draw::{Draw, quiet};
use crate::entry::{Entry, entry};
use crate::wire::answer::NAN;
use crate::wire::kind::Kind::{F32, I32, U32};

pub const ENTRIES: &[Entry] = &[
    entry(0x01, "f32_as_u32", &[F32], "u32", |given, _, answer| answer.u32(given.f32() as u32)).every(1 << 24, spread),
    entry(0x02, "f32_as_i32", &[F32], "i32", |given, _, answer| answer.i32(given.f32() as i32)).every(1 << 24, spread),
    entry(0x03, "f32_as_usize", &[F32], "u64", |given, _, answer| answer.u64(given.f32() as usize as u64))
        .every(1 << 24, spread),
    entry(0x04, "u32_as_f32", &[U32], "f32", |given, _, answer| answer.f32(given.u32() as f32)).every(1 << 24, spread),
    entry(0x05, "i32_as_f32", &[I32], "f32", |given, _, answer| answer.f32(given.i32() as f32)).every(1 << 24, spread),
    entry(0x06, "wrapping_add_u32", &[U32, U32], "u32", |given, _, answer| {
        answer.u32(given.u32().wrapping_add(given.u32()))
    })
    .drawn(sums),
    entry(0x07, "wrapping_sub_u32", &[U32, U32], "u32", |given, _, answer| {
        answer.u32(given.u32().wrapping_sub(given.u32()))
    })
    .drawn(sums),
    entry(0x08, "wrapping_mul_u32", &[U32, U32], "u32", |given, _, answer| {
        answer.u32(given.u32().wrapping_mul(given.u32()))
    })
    .drawn(products),
    entry(0x09, "wrapping_shl_u32", &[U32, U32], "u32, shifted by the second modulo 32", |given, _, answer| {
        answer.u32(given.u32().wrapping_shl(given.u32()))
    })
    .drawn(shifts),
    entry(0x0a, "wrapping_add_i32", &[I32, I32], "i32", |given, _, answer| {
        answer.i32(given.i32().wrapping_add(given.i32()))
    })
    .drawn(sums),
    entry(0x0b, "wrapping_sub_i32", &[I32, I32], "i32", |given, _, answer| {
        answer.i32(given.i32().wrapping_sub(given.i32()))
    })
    .drawn(sums),
    entry(0x0c, "i32_as_u32", &[I32], "u32", |given, _, answer| answer.u32(given.i32() as u32)).every(1 << 24, spread),
    entry(0x0d, "u32_as_i32", &[U32], "i32", |given, _, answer| answer.i32(given.u32() as i32)).every(1 << 24, spread),
    entry(0x0e, "f32_min", &[F32, F32], "f32", |given, _, answer| answer.f32(f32::min(given.f32(), given.f32())))
        .drawn(least_and_most),
    entry(0x0f, "f32_max", &[F32, F32], "f32", |given, _, answer| answer.f32(f32::max(given.f32(), given.f32())))
        .drawn(least_and_most),
    entry(0x10, "f32_abs", &[F32], "f32", |given, _, answer| answer.f32(f32::abs(given.f32()))).every(1 << 24, spread),
    entry(0x11, "f32_clamp_unit", &[F32], "f32, `x.clamp(0.0, 1.0)`", |given, _, answer| {
        answer.f32(given.f32().clamp(0.0, 1.0))
    })
    .every(1 << 24, spread),
    entry(0x12, "f32_to_bits", &[F32], "u32, 7fc00000 for a NaN", |given, _, answer| {
        let x = given.f32();
        answer.u32(if x.is_nan() { NAN } else { x.to_bits() })
    })
    .every(1 << 24, spread),
    entry(0x13, "f32_from_bits", &[U32], "f32", |given, _, answer| answer.f32(f32::from_bits(given.u32())))
        .every(1 << 24, spread),
];

/// Patterns spread evenly over all 32 bits: all upper 24, with the lower 8 made of them.
fn spread(nth: u64, draw: &mut Draw) {
    draw.u32((nth << 8 | nth.wrapping_mul(0x9e37_79b9) >> 24 & 0xff) as u32);
}

/// Two numbers whose sum or difference is often near 0 or 2^32.
fn sums(draw: &mut Draw) {
    let a = draw.any_u32();
    let b = match draw.below(4) {
        0 => a.wrapping_add(draw.below(7)).wrapping_sub(3),
        1 => a.wrapping_neg().wrapping_add(draw.below(7)).wrapping_sub(3),
        _ => draw.any_u32(),
    };
    draw.u32(a);
    draw.u32(b);
}

/// Two numbers whose product is often just below or above 2^32.
fn products(draw: &mut Draw) {
    let a = draw.any_u32();
    let b = match draw.below(2) {
        0 if a > 0 => (u32::MAX / a).wrapping_add(draw.below(3)).wrapping_sub(1),
        _ => draw.any_u32(),
    };
    draw.u32(a);
    draw.u32(b);
}

/// A number and a shift, mostly within 0 to 40.
fn shifts(draw: &mut Draw) {
    let a = draw.any_u32();
    let b = if draw.one_in(4) { draw.any_u32() } else { draw.below(41) };
    draw.u32(a);
    draw.u32(b);
}

/// Two floats, often neighbours, equal or opposite, without what Rust leaves to the machine: two zeros of different
/// sign, and signalling NaNs.
fn least_and_most(draw: &mut Draw) {
    let a = draw.quiet_f32();
    let b = match draw.below(8) {
        0 => a,
        1 => -a,
        2 | 3 => draw.near(a),
        _ => draw.quiet_f32(),
    };
    draw.f32(a);
    draw.f32(if a == 0.0 && b == 0.0 { a } else { quiet(b) });
}
