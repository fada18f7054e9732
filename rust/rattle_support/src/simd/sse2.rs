//! 16 bytes at once, with SSE2 on x86-64.

use core::arch::x86_64::*;

pub type Lanes = __m128i;
pub const COUNT: usize = 16;

// SAFETY: each intrinsic is safe if the target has SSE2, and this module is built only for such targets.
#[inline(always)]
pub fn splat(byte: u8) -> Lanes {
    unsafe { _mm_set1_epi8(byte as i8) }
}

#[inline(always)]
pub fn load(bytes: &[u8; COUNT]) -> Lanes {
    unsafe { _mm_loadu_si128(bytes.as_ptr().cast()) }
}

lanewise! {
    sub(a, b) = unsafe { _mm_sub_epi8(a, b) };
    or(a, b) = unsafe { _mm_or_si128(a, b) };
    and(a, b) = unsafe { _mm_and_si128(a, b) };
    not(a) = unsafe { _mm_xor_si128(a, _mm_set1_epi8(-1)) };
    eq(a, b) = unsafe { _mm_cmpeq_epi8(a, b) };
    ge(a, b) = unsafe { _mm_cmpeq_epi8(_mm_max_epu8(a, b), a) };
}

#[inline(always)]
pub fn bits(masks: &[Lanes]) -> u64 {
    let mut bits = 0;
    let mut n = 0;
    while n < masks.len() {
        bits |= u64::from(unsafe { _mm_movemask_epi8(masks[n]) } as u32) << (COUNT * n);
        n += 1;
    }
    bits
}
