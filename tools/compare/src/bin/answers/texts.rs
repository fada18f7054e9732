//! Random texts with many edge cases of lexers.

use std::collections::HashSet;
use std::ops::Range;
use std::path::PathBuf;

/// Pieces of texts, in addition to arbitrary characters.
#[rustfmt::skip]
const PIECES: &[&str] = &[
    " ", " ", "\n", "\r\n", "\t", "\u{b}", "\u{85}", "\u{200e}", "\u{2028}", "\u{a0}", "\u{feff}", "\0",
    "a", "b", "c", "r", "k", "e", "E", "x", "_", "_1", "é", "名", "foo", "self", "br", "cr", "rb", "bc",
    "0", "1", "9", "0x", "0b", "0o", "0_", "1.", "1..", "1e", "1e+", "2E-_", "3.0", ".5", "0xF_", "0b12", "1u8", "1.f",
    "'", "'a", "'a'", "'r#", "'\\", "b'", "\"", "\"\"", "b\"", "c\"", "\\", "\\\\", "\\\"", "\\\n",
    "#", "##", "###", "#\"", "\"#", "\"##", "r\"", "r#", "r#\"", "r##\"", "br\"", "br#\"", "cr#\"", "r#_", "k#a",
    "/", "//", "///", "//!", "////", "/*", "/**", "/*!", "/***", "*/", "/**/", "*", "!",
    "---", "----", "\n---", "\n---\n", "---a", "--- a.b-c \n", "-", "#!", "#![", "#!/bin/sh\n",
    "[", "]", "(", ")", "{", "}", "<", ">", "=", "&", "|", "+", "^", "%", "~", "?", ":", "::", "$", "@", ";", ",", ".",
    "😀", "👩", "\u{fe0f}", "1😀", "'😀", "€", "№", "\u{301}", "\u{10ffff}",
];

/// Additional pieces of the contents of literals.
#[rustfmt::skip]
const ESCAPES: &[&str] = &[
    "\\n", "\\r", "\\t", "\\0", "\\\\", "\\'", "\\\"", "\\q", "\\é", "\\\r", "\\", "\r", "\0", "é", "😀",
    "\\x", "\\x0", "\\x00", "\\x41", "\\x7f", "\\x80", "\\xFF", "\\xg", "\\x4g",
    "\\u", "\\u{", "\\u{}", "\\u{_", "\\u{_0}", "\\u{0}", "\\u{41}", "\\u{4_1_}", "\\u{d7ff}", "\\u{D800}", "\\u{dfff}",
    "\\u{e000}", "\\u{10ffff}", "\\u{110000}", "\\u{0000041}", "\\u{1234567", "\\u{12 }", "\\u{12é}", "}",
    "\\\n", "\\\n\n", "\\\n  ", "\\\n \t\r\n", "\\\r\n", "\u{a0}", "\u{b}", "\u{c}", "\u{2028}",
];

/// Additional pieces of documents and their edits.
#[rustfmt::skip]
const HEADS: &[&str] = &[
    "#!", "#", "!", "/", "[", "#![", "\n#![", "bin/sh", "\n", "\n", "\n", "\r\n", " ", "---", "---\n", "\n---",
    "----", "--", "-", "---a\n", "--- a.b\n", "cargo", "use ", "\nuse ", "//!", "\n//!", "//", "/*", "*/", "\"", "'",
    "r#\"", "\"#", "'r#a", "a",
];

/// A generator of random texts.
pub struct Random<'a> {
    state: u64,
    unsettled: &'a HashSet<char>,
}

impl<'a> Random<'a> {
    /// Returns a generator for a seed, whose texts contain none of the `unsettled` characters.
    pub fn new(seed: u64, unsettled: &'a HashSet<char>) -> Random<'a> {
        Random {
            state: seed,
            unsettled,
        }
    }

    /// Returns the next number of Steele, Lea and Flood's generator "SplitMix".
    fn number(&mut self) -> u64 {
        self.state = self.state.wrapping_add(0x9e37_79b9_7f4a_7c15);
        let mut mixed = self.state;
        mixed = (mixed ^ (mixed >> 30)).wrapping_mul(0xbf58_476d_1ce4_e5b9);
        mixed = (mixed ^ (mixed >> 27)).wrapping_mul(0x94d0_49bb_1331_11eb);
        mixed ^ (mixed >> 31)
    }

    /// Returns a number below a limit, which is not 0.
    fn below(&mut self, limit: usize) -> usize {
        (self.number() % limit as u64) as usize
    }

    /// Appends a piece, or sometimes an arbitrary character.
    fn put_piece(&mut self, text: &mut String) {
        if self.below(16) > 0 {
            let piece = PIECES[self.below(PIECES.len())];
            if !piece.chars().any(|c| self.unsettled.contains(&c)) {
                text.push_str(piece);
            }
            return;
        }
        let limit = [0x80, 0x800, 0x3000, 0x20000, 0x110000][self.below(5)];
        match char::from_u32(self.below(limit) as u32) {
            Some(c) if !self.unsettled.contains(&c) => text.push(c),
            _ => {}
        }
    }

    /// Returns the contents of a literal, which are sometimes long.
    pub fn literal(&mut self) -> String {
        let most = if self.below(50) == 0 { 400 } else { 8 };
        let mut text = String::new();
        for _ in 0..self.below(most) {
            match self.below(4) {
                0 => self.put_piece(&mut text),
                _ => text.push_str(ESCAPES[self.below(ESCAPES.len())]),
            }
        }
        text
    }

    /// Returns a fragment of a text, of at most about 300 bytes.
    fn part<'t>(&mut self, text: &'t str) -> &'t str {
        let start = text.floor_char_boundary(self.below(text.len() + 1));
        let end = text.floor_char_boundary(start + self.below(300));
        &text[start..end]
    }

    /// Returns pieces that start, end or break a shebang line or a frontmatter, and others.
    pub fn insert(&mut self, most: usize) -> String {
        let mut text = String::new();
        for _ in 0..self.below(most + 1) {
            match self.below(4) {
                0 => self.put_piece(&mut text),
                _ => text.push_str(HEADS[self.below(HEADS.len())]),
            }
        }
        text
    }

    /// Returns a document, which can start with a shebang line and a frontmatter.
    pub fn document(&mut self) -> String {
        let line = ["", "#!/bin/sh\n", "#!\n"][self.below(3)];
        let front = ["", "---\na\n---\n", "\n---a\n---\n", " \n----\n---\n----\n"][self.below(4)];
        [line, front, &self.insert(20)].concat()
    }

    /// Returns a range of a text on char boundaries, often near the start, and often short.
    pub fn range(&mut self, text: &str) -> Range<usize> {
        let near = if self.below(2) == 0 { 24 } else { text.len() };
        let start = text.floor_char_boundary(self.below(near.min(text.len()) + 1));
        let most = [0, 1, 9, text.len()][self.below(4)];
        let end = start + self.below(most.min(text.len() - start) + 1);
        start..text.ceil_char_boundary(end)
    }

    /// Returns a text of pieces, or of fragments of files with pieces between them.
    pub fn text(&mut self, files: &[(PathBuf, String)]) -> String {
        let mut text = String::new();
        let count = 1 + self.below(12);
        if files.is_empty() || self.below(2) == 0 {
            (0..count).for_each(|_| self.put_piece(&mut text));
            return text;
        }
        for _ in 0..1 + count / 4 {
            let file = &files[self.below(files.len())].1;
            text.push_str(self.part(file));
            (0..self.below(3)).for_each(|_| self.put_piece(&mut text));
        }
        text
    }
}
