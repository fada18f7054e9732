//! Random texts, offsets and ranges.

use std::ops::Range;

/// Knuth's linear congruential generator with 64 bits, and the pieces that texts consist of.
pub struct Random(pub u64, pub &'static [&'static str]);

impl Random {
    pub fn below(&mut self, bound: usize) -> usize {
        self.0 = self
            .0
            .wrapping_mul(6_364_136_223_846_793_005)
            .wrapping_add(1_442_695_040_888_963_407);
        ((self.0 >> 33) as usize) % bound
    }

    /// Returns a text of at most this many pieces.
    pub fn text(&mut self, most: usize) -> String {
        let count = self.below(most + 1);
        (0..count)
            .map(|_| self.1[self.below(self.1.len())])
            .collect()
    }

    /// Returns a range between characters that starts in the first `first` bytes and has at most some two bytes more
    /// than `most`.
    pub fn range_in(&mut self, text: &str, first: usize, most: usize) -> Range<usize> {
        let mut start = self.below(first.min(text.len()) + 1);
        while !text.is_char_boundary(start) {
            start -= 1;
        }
        let mut end = start + self.below(most.min(text.len() - start) + 1);
        while !text.is_char_boundary(end) {
            end += 1;
        }
        start..end
    }
}
