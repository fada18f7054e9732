//! The parts of Rattle's `itoa` that `lexdump` uses. This module is hand-written and trusted: each item must meet the
//! contract of the item with the same name in Rattle.

/// The digits of 0 to 99, two each.
const PAIRS: [[u8; 2]; 100] = {
    let mut pairs = [[b'0'; 2]; 100];
    let mut n = 0;
    while n < 100 {
        pairs[n] = [b'0' + n as u8 / 10, b'0' + n as u8 % 10];
        n += 1;
    }
    pairs
};

/// Writes the decimal digits of a number, without leading zeros, before index `end`, and returns the index at which
/// they start. The rest of the buffer is unchanged.
///
/// # Panics
///
/// Panics if the digits do not fit.
#[inline]
pub fn write_digits(n: u64, buf: &mut [u8], end: usize) -> usize {
    let (mut left, mut at) = (n, end);
    while left >= 100 {
        at -= 2;
        buf[at..at + 2].copy_from_slice(&PAIRS[(left % 100) as usize]);
        left /= 100;
    }
    if left >= 10 {
        at -= 2;
        buf[at..at + 2].copy_from_slice(&PAIRS[left as usize]);
    } else {
        at -= 1;
        buf[at] = b'0' + left as u8;
    }
    at
}

/// The maximum number of digits of a `u64`.
const MAX_DIGITS: usize = 20;

/// A buffer for the digits of a number.
pub struct Buffer([u8; MAX_DIGITS]);

impl Buffer {
    /// Creates a buffer.
    #[allow(clippy::new_without_default)]
    pub fn new() -> Buffer {
        Buffer([0; MAX_DIGITS])
    }

    /// Returns the number in decimal, without leading zeros.
    pub fn format(&mut self, n: usize) -> &str {
        let start = write_digits(n as u64, &mut self.0, MAX_DIGITS);
        core::str::from_utf8(&self.0[start..]).expect("digits are text")
    }
}

#[cfg(test)]
mod tests {
    use super::*;

    #[test]
    fn digits_equal_those_of_rust() {
        let powers = (0..20).map(|power| 10u64.pow(power));
        let near = powers.flat_map(|n| [n - 1, n, n + 1, n.saturating_mul(9)]);
        for n in near.chain(0..20_000).chain([u64::MAX, u64::from(u32::MAX)]) {
            let wanted = n.to_string();
            assert_eq!(Buffer::new().format(n as usize), wanted);
            let mut buf = [b'x'; 22];
            let start = write_digits(n, &mut buf, 21);
            assert_eq!(buf[start..21], *wanted.as_bytes());
            let around = [&buf[..start], &buf[21..]].concat();
            assert!(around.iter().all(|byte| *byte == b'x'));
        }
    }
}
