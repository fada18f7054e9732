//! Compares each operation on vectors of bytes with the same operation on single bytes. It tests the implementation of
//! this target, and the implementations for NEON and WebAssembly with plain functions in place of their instructions.

use super::{Bytes, COUNT, Mask, u8x16, u8x32, u8x64};

/// Returns the results of a test as bits. Bit k is set if the test holds for the two bytes in lane k.
fn bits(a: &[u8], b: &[u8], test: impl Fn(u8, u8) -> bool) -> u64 {
    let pairs = a.iter().zip(b).enumerate();
    pairs.fold(0, |bits, (k, (a, b))| bits | u64::from(test(*a, *b)) << k)
}

/// Compares the results for each pair of bytes, in each lane, with the results for single bytes.
fn all_pairs<const N: usize>() {
    let len = N * COUNT;
    for apart in 0..=255u8 {
        for from in (0..256).step_by(len) {
            let a: std::vec::Vec<u8> = (from..from + len).map(|n| n as u8).collect();
            let b: std::vec::Vec<u8> = a.iter().map(|n| n.wrapping_add(apart)).collect();
            let (x, y) = (Bytes::<N>::from_slice(&a), Bytes::<N>::from_slice(&b));
            assert_eq!(x.simd_eq(y).to_bitmask(), bits(&a, &b, |a, b| a == b));
            assert_eq!(x.simd_ne(y).to_bitmask(), bits(&a, &b, |a, b| a != b));
            assert_eq!(x.simd_ge(y).to_bitmask(), bits(&a, &b, |a, b| a >= b));
            assert_eq!(x.simd_lt(y).to_bitmask(), bits(&a, &b, |a, b| a < b));
            let same = x.simd_eq(Bytes::splat(apart));
            assert_eq!(same.to_bitmask(), bits(&a, &b, |a, _| a == apart));
            let seven = Bytes::splat(7);
            let less = (x - y).simd_ge(seven).to_bitmask();
            let joined = (x | y).simd_eq(seven).to_bitmask();
            assert_eq!(less, bits(&a, &b, |a, b| a.wrapping_sub(b) >= 7));
            assert_eq!(joined, bits(&a, &b, |a, b| a | b == 7));
            let (one, other): (Mask<N>, Mask<N>) = (x.simd_ge(y), x.simd_ge(seven));
            let (any, both) = ((one | other).to_bitmask(), (one & other).to_bitmask());
            assert_eq!(any, bits(&a, &b, |a, b| a >= b || a >= 7));
            assert_eq!(both, bits(&a, &b, |a, b| a >= b && a >= 7));
        }
    }
}

#[test]
fn lanes_are_bytes() {
    all_pairs::<{ 16 / COUNT }>();
    all_pairs::<{ 32 / COUNT }>();
    all_pairs::<{ 64 / COUNT }>();
    let bytes: [u8; 64] = core::array::from_fn(|n| n as u8);
    let three = u8x16::splat(3);
    assert_eq!(u8x16::from_slice(&bytes).simd_lt(three).to_bitmask(), 7);
    let three = u8x32::splat(3);
    assert_eq!(u8x32::from_slice(&bytes).simd_lt(three).to_bitmask(), 7);
    let three = u8x64::splat(3);
    assert_eq!(u8x64::from_slice(&bytes).simd_lt(three).to_bitmask(), 7);
}

/// Does the same for the functions on lanes in a module.
#[cfg(not(feature = "portable"))]
macro_rules! all_pairs_of {
    ($lanes:ident) => {
        for apart in 0..=255u8 {
            for from in (0..256).step_by(64) {
                let a: [u8; 64] = core::array::from_fn(|n| (from + n) as u8);
                let b: [u8; 64] = a.map(|n| n.wrapping_add(apart));
                let part =
                    |bytes: &[u8; 64], n| $lanes::load(bytes[16 * n..].first_chunk().unwrap());
                let each = |f: &dyn Fn($lanes::Lanes, $lanes::Lanes) -> $lanes::Lanes| {
                    let masks: [_; 4] = core::array::from_fn(|n| f(part(&a, n), part(&b, n)));
                    let bits = $lanes::bits(&masks);
                    assert_eq!($lanes::bits(&masks[..1]), bits & u64::from(u16::MAX));
                    assert_eq!($lanes::bits(&masks[..2]), bits & u64::from(u32::MAX));
                    bits
                };
                use $lanes::{and, eq, ge, not, or, splat, sub};
                let seven = splat(7);
                let same = |made: u64, wanted: fn(u8, u8) -> bool| {
                    assert_eq!(made, bits(&a, &b, wanted));
                };
                same(each(&eq), |a, b| a == b);
                same(each(&ge), |a, b| a >= b);
                let of_one = each(&|a, _| eq(a, splat(apart)));
                assert_eq!(of_one, bits(&a, &b, |a, _| a == apart));
                same(each(&|a, b| not(ge(a, b))), |a, b| a < b);
                same(each(&|a, b| eq(sub(a, b), seven)), |a, b| {
                    a.wrapping_sub(b) == 7
                });
                same(each(&|a, b| eq(or(a, b), seven)), |a, b| a | b == 7);
                same(each(&|a, b| and(ge(a, b), ge(a, seven))), |a, b| {
                    a >= b && a >= 7
                });
            }
        }
    };
}

/// The instructions that both modules use, as the references of the processors define them.
#[cfg(not(feature = "portable"))]
#[allow(non_camel_case_types)]
mod arch {
    /// Sixteen bytes, one after another.
    type Sixteen = [u8; 16];
    pub type uint8x16_t = Sixteen;
    pub type v128 = Sixteen;

    fn with(a: Sixteen, b: Sixteen, f: impl Fn(u8, u8) -> u8) -> Sixteen {
        core::array::from_fn(|n| f(a[n], b[n]))
    }

    /// Returns a lane of the result of a comparison.
    fn all(is: bool) -> u8 {
        if is { 255 } else { 0 }
    }

    /// Declares instructions on lanes: for Arm, where they are `unsafe` to call, and for WebAssembly.
    macro_rules! lanewise {
        ($($neon:ident, $wasm:ident: $f:expr;)*) => {$(
            pub unsafe fn $neon(a: Sixteen, b: Sixteen) -> Sixteen {
                with(a, b, $f)
            }
            pub fn $wasm(a: Sixteen, b: Sixteen) -> Sixteen {
                with(a, b, $f)
            }
        )*};
    }

    lanewise! {
        vsubq_u8, u8x16_sub: u8::wrapping_sub;
        vorrq_u8, v128_or: |a, b| a | b;
        vandq_u8, v128_and: |a, b| a & b;
        vceqq_u8, u8x16_eq: |a, b| all(a == b);
        vcgeq_u8, u8x16_ge: |a, b| all(a >= b);
    }

    pub unsafe fn vdupq_n_u8(byte: u8) -> Sixteen {
        [byte; 16]
    }

    pub unsafe fn vld1q_u8(bytes: *const u8) -> Sixteen {
        unsafe { bytes.cast::<Sixteen>().read() }
    }

    pub unsafe fn vmvnq_u8(a: Sixteen) -> Sixteen {
        a.map(|a| !a)
    }

    /// Returns the sums of neighbouring bytes, first of `a` and then of `b`.
    pub unsafe fn vpaddq_u8(a: Sixteen, b: Sixteen) -> Sixteen {
        let of = |n: usize| if n < 16 { a[n] } else { b[n - 16] };
        core::array::from_fn(|n| of(2 * n).wrapping_add(of(2 * n + 1)))
    }

    pub unsafe fn vreinterpretq_u64_u8(a: Sixteen) -> [u64; 2] {
        [0, 8].map(|n| u64::from_le_bytes(*a[n..].first_chunk().unwrap()))
    }

    pub unsafe fn vgetq_lane_u64<const LANE: usize>(a: [u64; 2]) -> u64 {
        a[LANE]
    }

    pub fn u8x16_splat(byte: u8) -> Sixteen {
        [byte; 16]
    }

    pub unsafe fn v128_load(bytes: *const v128) -> v128 {
        unsafe { bytes.read() }
    }

    pub fn v128_not(a: Sixteen) -> Sixteen {
        a.map(|a| !a)
    }

    /// Returns the high bits of the lanes.
    pub fn u8x16_bitmask(a: Sixteen) -> u16 {
        (0..16).fold(0, |bits, n| bits | u16::from(a[n] >> 7) << n)
    }
}

#[cfg(not(feature = "portable"))]
#[path = "neon.rs"]
mod neon;

#[cfg(not(feature = "portable"))]
#[path = "wasm.rs"]
mod wasm;

#[cfg(not(feature = "portable"))]
#[test]
fn lanes_of_other_targets_are_bytes() {
    all_pairs_of!(neon);
    all_pairs_of!(wasm);
}
