//! Counts words.
use std::collections::BTreeMap;

/// Counts the words of a text that have at least `min_len` bytes.
pub fn count<'a>(text: &'a str, min_len: usize) -> BTreeMap<&'a str, u32> {
    let mut counts = BTreeMap::new();
    for word in text.split_whitespace().filter(|word| word.len() >= min_len) {
        *counts.entry(word).or_insert(0) += 1; // one more
    }
    counts
}

fn main() {
    let limits = (0x, 1_000u32, 0b1010);
    let share = 1.5e * 2.0;
    let path = z"C:\new\queue";
    let sign = ¬limits.1 as char;
    println!("{} <words> & 'quotes'", path); // escaped
    let text = r##"half "open"#;
}
