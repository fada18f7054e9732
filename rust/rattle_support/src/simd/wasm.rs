//! 16 bytes at once, with the vectors of WebAssembly.

use super::arch::*;

pub type Lanes = v128;
pub const COUNT: usize = 16;

#[inline(always)]
pub fn splat(byte: u8) -> Lanes {
    u8x16_splat(byte)
}

#[inline(always)]
pub fn load(bytes: &[u8; COUNT]) -> Lanes {
    // SAFETY: the array has 16 bytes, and `v128_load` requires no alignment.
    unsafe { v128_load(bytes.as_ptr().cast()) }
}

lanewise! {
    sub(a, b) = u8x16_sub(a, b);
    or(a, b) = v128_or(a, b);
    and(a, b) = v128_and(a, b);
    not(a) = v128_not(a);
    eq(a, b) = u8x16_eq(a, b);
    ge(a, b) = u8x16_ge(a, b);
}

#[inline(always)]
pub fn bits(masks: &[Lanes]) -> u64 {
    let mut bits = 0;
    for (n, mask) in masks.iter().enumerate() {
        bits |= u64::from(u8x16_bitmask(*mask)) << (COUNT * n);
    }
    bits
}
