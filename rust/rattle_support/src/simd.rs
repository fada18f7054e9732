//! Vectors of 16, 32 and 64 bytes, with the names of `std::simd`, on stable Rust. They use SSE2, NEON or the vectors of
//! WebAssembly and, on other targets or with the feature `portable`, eight bytes in a word. The contracts are the same
//! as for `std::simd` in Rattle.

/// Declares functions on lanes, which are always inlined.
macro_rules! lanewise {
    ($($name:ident($($lanes:ident),*) = $made:expr;)*) => {$(
        #[inline(always)]
        pub fn $name($($lanes: Lanes),*) -> Lanes {
            $made
        }
    )*};
}

// On all other targets, this is `lanes.rs`, which uses words.
#[cfg(feature = "portable")]
mod lanes;
#[cfg(not(feature = "portable"))]
#[cfg_attr(
    all(target_arch = "x86_64", target_feature = "sse2"),
    path = "simd/sse2.rs"
)]
#[cfg_attr(
    all(target_arch = "aarch64", target_feature = "neon"),
    path = "simd/neon.rs"
)]
#[cfg_attr(
    all(target_arch = "wasm32", target_feature = "simd128"),
    path = "simd/wasm.rs"
)]
mod lanes;

// The tests use plain functions instead.
#[cfg(target_arch = "aarch64")]
#[allow(unused_imports)]
use core::arch::aarch64 as arch;
#[cfg(target_arch = "wasm32")]
#[allow(unused_imports)]
use core::arch::wasm32 as arch;
use core::ops::{BitAnd, BitOr, Sub};
use lanes::{COUNT, Lanes};

/// A vector of bytes.
#[derive(Clone, Copy)]
pub struct Bytes<const N: usize>([Lanes; N]);

/// The result of a comparison, lane by lane.
#[derive(Clone, Copy)]
pub struct Mask<const N: usize>([Lanes; N]);

/// A vector of 16 bytes.
#[allow(non_camel_case_types)]
pub type u8x16 = Bytes<{ 16 / COUNT }>;
/// A vector of 32 bytes.
#[allow(non_camel_case_types)]
pub type u8x32 = Bytes<{ 32 / COUNT }>;
/// A vector of 64 bytes.
#[allow(non_camel_case_types)]
pub type u8x64 = Bytes<{ 64 / COUNT }>;

/// Applies `f` to each pair of lanes. This is a plain loop, because a build without optimization makes about twenty
/// calls for each lane of `core::array::from_fn`.
#[inline(always)]
fn both<const N: usize>(
    a: [Lanes; N],
    b: [Lanes; N],
    f: impl Fn(Lanes, Lanes) -> Lanes,
) -> [Lanes; N] {
    let mut made = a;
    let mut n = 0;
    while n < N {
        made[n] = f(a[n], b[n]);
        n += 1;
    }
    made
}

impl<const N: usize> Bytes<N> {
    /// Returns a vector whose bytes all have this value.
    #[must_use]
    #[inline(always)]
    pub fn splat(byte: u8) -> Bytes<N> {
        Bytes([lanes::splat(byte); N])
    }

    /// Returns the first bytes of the slice.
    ///
    /// # Panics
    ///
    /// Panics if the slice is shorter than the vector.
    #[must_use]
    #[inline(always)]
    pub fn from_slice(bytes: &[u8]) -> Bytes<N> {
        let bytes = &bytes[..N * COUNT];
        let mut loaded = [lanes::splat(0); N];
        let mut n = 0;
        while n < N {
            loaded[n] = lanes::load(
                bytes[n * COUNT..]
                    .first_chunk()
                    .expect("COUNT bytes are left"),
            );
            n += 1;
        }
        Bytes(loaded)
    }

    /// Returns which bytes are equal to the ones in the same place.
    #[must_use]
    #[inline(always)]
    pub fn simd_eq(self, other: Bytes<N>) -> Mask<N> {
        Mask(both(self.0, other.0, lanes::eq))
    }

    /// Returns which bytes are not equal to the ones in the same place.
    #[must_use]
    #[inline(always)]
    pub fn simd_ne(self, other: Bytes<N>) -> Mask<N> {
        Mask(both(self.0, other.0, |a, b| lanes::not(lanes::eq(a, b))))
    }

    /// Returns which bytes are greater than or equal to the ones in the same place.
    #[must_use]
    #[inline(always)]
    pub fn simd_ge(self, other: Bytes<N>) -> Mask<N> {
        Mask(both(self.0, other.0, lanes::ge))
    }

    /// Returns which bytes are less than the ones in the same place.
    #[must_use]
    #[inline(always)]
    pub fn simd_lt(self, other: Bytes<N>) -> Mask<N> {
        Mask(both(self.0, other.0, |a, b| lanes::not(lanes::ge(a, b))))
    }
}

impl<const N: usize> BitOr for Bytes<N> {
    type Output = Bytes<N>;

    #[inline(always)]
    fn bitor(self, other: Bytes<N>) -> Bytes<N> {
        Bytes(both(self.0, other.0, lanes::or))
    }
}

/// Subtraction wraps around, as in `std::simd`.
impl<const N: usize> Sub for Bytes<N> {
    type Output = Bytes<N>;

    #[inline(always)]
    fn sub(self, other: Bytes<N>) -> Bytes<N> {
        Bytes(both(self.0, other.0, lanes::sub))
    }
}

impl<const N: usize> Mask<N> {
    /// Returns the lanes as bits. Bit k is set if lane k is.
    #[must_use]
    #[inline(always)]
    pub fn to_bitmask(self) -> u64 {
        lanes::bits(&self.0)
    }
}

impl<const N: usize> BitOr for Mask<N> {
    type Output = Mask<N>;

    #[inline(always)]
    fn bitor(self, other: Mask<N>) -> Mask<N> {
        Mask(both(self.0, other.0, lanes::or))
    }
}

impl<const N: usize> BitAnd for Mask<N> {
    type Output = Mask<N>;

    #[inline(always)]
    fn bitand(self, other: Mask<N>) -> Mask<N> {
        Mask(both(self.0, other.0, lanes::and))
    }
}

#[cfg(test)]
mod tests;
