//! 16 bytes at once, with NEON on aarch64.

use super::arch::*;

pub type Lanes = uint8x16_t;
pub const COUNT: usize = 16;

/// The bit of a lane in its byte of the mask.
const WEIGHTS: [u8; 16] = [1, 2, 4, 8, 16, 32, 64, 128, 1, 2, 4, 8, 16, 32, 64, 128];

// SAFETY: each intrinsic is safe if the target has NEON, and this module is built only for such targets.
#[inline(always)]
pub fn splat(byte: u8) -> Lanes {
    unsafe { vdupq_n_u8(byte) }
}

#[inline(always)]
pub fn load(bytes: &[u8; COUNT]) -> Lanes {
    unsafe { vld1q_u8(bytes.as_ptr()) }
}

lanewise! {
    sub(a, b) = unsafe { vsubq_u8(a, b) };
    or(a, b) = unsafe { vorrq_u8(a, b) };
    and(a, b) = unsafe { vandq_u8(a, b) };
    not(a) = unsafe { vmvnq_u8(a) };
    eq(a, b) = unsafe { vceqq_u8(a, b) };
    ge(a, b) = unsafe { vcgeq_u8(a, b) };
}

#[inline(always)]
pub fn bits(masks: &[Lanes]) -> u64 {
    let weights = load(&WEIGHTS);
    let weighed = |n: usize| masks.get(n).map_or(splat(0), |mask| and(*mask, weights));
    unsafe {
        let sums = vpaddq_u8(
            vpaddq_u8(weighed(0), weighed(1)),
            vpaddq_u8(weighed(2), weighed(3)),
        );
        vgetq_lane_u64::<0>(vreinterpretq_u64_u8(vpaddq_u8(sums, sums)))
    }
}
