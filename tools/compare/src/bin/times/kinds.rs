//! Texts of one kind of token, and lines of frontmatters.

/// The length of a text of one kind, in bytes.
const LEN: usize = 1 << 16;

/// A kind of text: its name, and pieces that are chosen at random. In a piece, `%` and a letter are replaced by some
/// characters of a set.
pub type Kind = (&'static str, &'static [&'static str]);

#[rustfmt::skip]
pub const KINDS: [Kind; 26] = [
    ("whitespace", &[";\n%s", ";%s"]),
    ("identifiers", &["%w "]),
    ("long identifiers", &["%w%w%w_%w%w%w "]),
    ("identifiers of two-byte letters", &["%g "]),
    ("identifiers of three-byte letters", &["%k "]),
    ("words with a single letter outside ASCII", &["%w\u{e9}%w "]),
    ("words with combining marks", &["%we\u{301}%w "]),
    ("names with an emoji", &["%w\u{1f600} "]),
    ("punctuation", &["::", "->", ";", "(", ")", "{", "}", ",", "==", "&", ".", "#", "[", "]", "<", ">", "!="]),
    ("line comments", &["// %w %w %w %w %w %w\n"]),
    ("block comments", &["/* %w %w %w %w %w %w %w %w */\n"]),
    ("nested comments", &["/* %w /* %w */ %w */\n"]),
    ("open comments", &["/* %w ", "/*", "/* /* "]),
    ("strings", &["\"%w %w %w %w\" "]),
    ("strings dense with escapes", &["\"%w\\n%w\\\"%w\\\\\" "]),
    ("raw strings", &["r\"%w %w %w %w\" ", "r#\"%w %w \"%w\" %w\"# "]),
    ("raw quotes", &["r##\"%w \"# \"%w\"#\"\" %w\"## ", "r###\"\"\"\" \"## \"#\"### "]),
    ("numbers", &["%d ", "0x%h ", "%d.%de%d ", "1_%du32 "]),
    ("integers", &["%d "]),
    ("hexadecimal numbers", &["0x%h "]),
    ("floats", &["%d.%d ", "%d.%de%d "]),
    ("lifetimes", &["'%w "]),
    ("characters", &["'a' ", "'z' ", "'\\n' "]),
    ("carriage returns", &["%w\r", ";\r\r", "\"%w\r%w\" ", "// %w\r%w\n"]),
    ("guarded strings", &["#\"%w\"# ", "##\"%w\"## "]),
    ("unknown prefixes", &["%w\"%w\" ", "%w'%w "]),
];

/// The start of a text, and a repeated piece: shapes that can make a lexer slow.
#[rustfmt::skip]
pub const SHAPES: [(&str, &str); 14] = [
    ("", "/*"), ("", "/ * "), ("", "\""), ("\"", "\\\\"), ("\"", "\\\""), ("", "r#~"), ("", "#\"a\""), ("", "1e+"),
    ("", "\u{e9}"), ("", "'a "), ("", "1a "), ("", "k'a "), ("", "a\u{200d}"),
    ("", "a\"b\" c'd e#f 1.2 /*x*/ "),
];

/// Lines of an unclosed frontmatter.
pub const LINES: [(&str, &str); 4] = [
    ("lines with one letter", "a\n"),
    (
        "prose",
        "some words that stand for themselves, and no other\n",
    ),
    ("Rust", "    let mut end = start + 1;\n"),
    ("empty lines", "\n"),
];

/// Returns a text of a shape.
pub fn again(start: &str, unit: &str) -> String {
    format!("{start}{}", unit.repeat(LEN / unit.len()))
}

/// Returns a text of a kind, which is the same in each run.
pub fn text(pieces: &[&str]) -> String {
    let mut random = 1u64;
    let mut below = |count: usize| {
        random = random.wrapping_mul(6_364_136_223_846_793_005);
        random = random.wrapping_add(1_442_695_040_888_963_407);
        (random >> 33) as usize % count
    };
    let mut text = String::new();
    while text.len() < LEN {
        let mut parts = pieces[below(pieces.len())].split('%');
        text.push_str(parts.next().unwrap_or(""));
        for part in parts {
            let (set, rest) = part.split_at(1);
            let (set, least, more) = match set {
                "w" => ("abcdefghijklmnopqstuvwxyz_", 3, 8),
                "g" => ("αβγδεζηθéüöждя", 4, 8),
                "k" => ("漢字仮名日本語文", 3, 6),
                "s" => (" ", 1, 24),
                "h" => ("0123456789abcdef", 2, 6),
                _ => ("0123456789", 1, 4),
            };
            let set: Vec<char> = set.chars().collect();
            for _ in 0..least + below(more) {
                text.push(set[below(set.len())]);
            }
            text.push_str(rest);
        }
    }
    text
}
