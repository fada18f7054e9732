//! Times our crates and the originals in one process, and prints a table of nanoseconds:
//! `cargo run --release --bin times -- FILE [ROUNDS]`. `tools/compare/measure` writes some into docs/SPEED.md.
//!
//! It times each way to lex the first 256 KB of the file, per token and with each consumer; then texts of one kind, and
//! unclosed frontmatters; then single calls, and calls on strings of 100 KB. The two crates run alternately, and the
//! minimum time of all rounds counts. Both must pass the same numbers to their consumers.

mod calls;
mod kinds;
mod tokens;

use calls::{ours, theirs};
use std::hint::black_box;
use std::time::{Duration, Instant};
use std::{env, fs};

/// The result of a consumer: the number of items, and a checksum of them.
#[derive(Clone, Copy, Debug, Default, PartialEq)]
struct Sum {
    count: u64,
    sum: u64,
}

impl Sum {
    #[inline(always)]
    fn new(count: u64, sum: u64) -> Sum {
        Sum { count, sum }
    }

    #[inline(always)]
    fn add(self, kind: u64, len: u32) -> Sum {
        let sum = self.sum.rotate_left(5) ^ kind;
        Sum::new(self.count + 1, sum.wrapping_add(u64::from(len) << 32))
    }

    /// Returns the result per byte of a text, with the number of items in the checksum.
    fn of_bytes(self, text: &str) -> Sum {
        let sum = self.sum.wrapping_mul(31).wrapping_add(self.count);
        Sum::new(text.len() as u64, sum)
    }
}

/// A timed function of a text.
type Use = fn(&str) -> Sum;

/// Calls a timed function. `measure` passes the name of this function to callgrind, which counts its instructions.
#[unsafe(no_mangle)]
#[inline(never)]
fn counted(what: Use, text: &str) -> Sum {
    black_box(what(black_box(text)))
}

/// Prints a row: the use, its input, and the minimum time of the original and of our crate in nanoseconds per item. The
/// measurement runs for at least `rounds` - 1 milliseconds.
fn row(name: &str, with: &str, uses: [Use; 2], text: &str, rounds: usize) {
    let mut least = [Duration::MAX; 2];
    let mut sums = [Sum::default(); 2];
    let mut left = rounds;
    let begin = Instant::now();
    while left > 0 || begin.elapsed() < Duration::from_millis(rounds as u64 - 1) {
        left = left.saturating_sub(1);
        for which in 0..2 {
            let start = Instant::now();
            sums[which] = counted(uses[which], text);
            least[which] = least[which].min(start.elapsed());
        }
    }
    assert_eq!(sums[0], sums[1], "results differ: {name} {with}");
    let [theirs, ours] = least.map(|least| least.as_secs_f64() * 1e9 / sums[0].count as f64);
    let ratio = ours / theirs;
    println!("| {name} | {with} | {theirs:.3} | {ours:.3} | {ratio:.3} |");
}

fn main() {
    let mut words = env::args().skip(1);
    let path = words.next().expect("the name of a file");
    let rounds = words.next().map_or(50, |word| word.parse().unwrap());
    let mut text = fs::read_to_string(path).unwrap();
    text.truncate(text.floor_char_boundary(1 << 18));
    println!("| Use | With | Original | This crate | Ratio |\n|---|---|---|---|---|");
    for (name, pairs) in tokens::ways() {
        let alone = pairs.len() == 1;
        for (consumer, pair) in tokens::CONSUMERS.into_iter().zip(pairs) {
            row(name, if alone { "" } else { consumer }, pair, &text, rounds);
        }
    }
    for (kind, pieces) in kinds::KINDS {
        let text = kinds::text(pieces);
        row("`for` over one kind", kind, tokens::FOR_LOOP, &text, rounds);
    }
    for (start, unit) in kinds::SHAPES {
        let text = kinds::again(start, unit);
        let name = format!("`{start}{unit}`").replace('\u{200d}', "\\u{200d}");
        row(
            "`for` over one piece again and again",
            &name,
            tokens::FOR_LOOP,
            &text,
            rounds,
        );
    }
    for (kind, line) in kinds::LINES {
        let text = format!("---\n{}", line.repeat(1_000_000 / line.len()));
        row("an open frontmatter", kind, tokens::WITH_YES, &text, rounds);
    }
    for (theirs, ours) in theirs::CALLS.iter().zip(ours::CALLS) {
        row(theirs.0, "", [theirs.1, ours.1], "", rounds);
    }
    for (theirs, ours) in theirs::LONG.iter().zip(ours::LONG) {
        let name = format!("{} of a text", theirs.0);
        for (kind, part) in calls::TEXTS {
            let text = part.repeat(100_000 / part.len());
            row(&name, kind, [theirs.1, ours.1], &text, rounds);
        }
    }
}
