//! 8 bytes at once, in a word. This works on any processor and needs no `unsafe`.

pub type Lanes = u64;
pub const COUNT: usize = 8;

const ONES: u64 = u64::from_ne_bytes([1; 8]);
const HIGH: u64 = ONES << 7;

#[inline(always)]
pub fn splat(byte: u8) -> Lanes {
    u64::from(byte) * ONES
}

#[inline(always)]
pub fn load(bytes: &[u8; COUNT]) -> Lanes {
    u64::from_le_bytes(*bytes)
}

// A mask contains only the high bit of each byte.
lanewise! {
    sub(a, b) = ((a | HIGH) - (b & !HIGH)) ^ ((a ^ !b) & HIGH);
    or(a, b) = a | b;
    and(a, b) = a & b;
    not(a) = a ^ HIGH;
    eq(a, b) = {
        let apart = a ^ b;
        !(((apart & !HIGH) + !HIGH) | apart) & HIGH
    };
    ge(a, b) = {
        let low = (a | HIGH) - (b & !HIGH);
        ((a & !b) | (!(a ^ b) & low)) & HIGH
    };
}

#[inline(always)]
pub fn bits(masks: &[Lanes]) -> u64 {
    let mut bits = 0;
    for (n, mask) in masks.iter().enumerate() {
        bits |= ((mask >> 7).wrapping_mul(0x0102_0408_1020_4080) >> 56) << (COUNT * n);
    }
    bits
}
