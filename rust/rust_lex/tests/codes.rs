//! The codes of errors in `rust-lex check --format json`, which must not change.

mod common;

use common::{empty_folder, run_with_input, rust_lex, text_of};

/// Each code, and a text with only this error. `HASHES` is 256 times `#`, and `DASHES` 256 times `-`.
#[rustfmt::skip]
const CODES: [(&str, &str); 52] = [
    ("unterminated-block-comment", "/*"),
    ("whitespace-before-frontmatter", " ---\n---\n"),
    ("invalid-infostring", "---a b\n---\n"),
    ("unclosed-frontmatter", "---\n"),
    ("whitespace-before-frontmatter-close", "---\n ---\n"),
    ("frontmatter-close-mismatch", "---\n----\n"),
    ("extra-after-frontmatter-close", "---\n---x\n"),
    ("invalid-name", "a🙂"),
    ("unknown-prefix", "z\"\""),
    ("unknown-lifetime-prefix", "'z#"),
    ("guarded-string", "##"),
    ("invalid-lifetime", "'1a"),
    ("unknown-character", "¬"),
    ("empty-number", "0x"),
    ("empty-exponent", "1e"),
    ("unterminated-char", "'("),
    ("unterminated-byte", "b'a"),
    ("unterminated-string", "\"a"),
    ("invalid-raw-starter", "r#~"),
    ("unterminated-raw-string", "r\"a"),
    ("too-few-hashes", "r##\"a\"#"),
    ("too-many-hashes", "rHASHES\"\"HASHES"),
    ("invalid-digit", "0b2"),
    ("float-of-base", "0x1.0"),
    ("raw-keyword", "r#self"),
    ("underscore-suffix", "\"\"_"),
    ("bare-carriage-return-in-doc-comment", "/// a\rb"),
    ("bare-carriage-return-in-frontmatter", "---\na\rb\n---\n"),
    ("too-many-dashes", "DASHES\nDASHES\n"),
    ("text-direction-codepoint", "// \u{202e}"),
    ("zero-chars", "''"),
    ("more-than-one-char", "'ab'"),
    ("invalid-escape", "\"\\q\""),
    ("bare-carriage-return", "\"a\rb\""),
    ("bare-carriage-return-in-raw-string", "r\"a\rb\""),
    ("escape-only-char", "'\t'"),
    ("too-short-hex-escape", "\"\\x1\""),
    ("invalid-char-in-hex-escape", "\"\\xz1\""),
    ("out-of-range-hex-escape", "\"\\x80\""),
    ("no-brace-in-unicode-escape", "\"\\u41\""),
    ("invalid-char-in-unicode-escape", "\"\\u{g}\""),
    ("empty-unicode-escape", "\"\\u{}\""),
    ("unclosed-unicode-escape", "\"\\u{1\""),
    ("leading-underscore-unicode-escape", "\"\\u{_1}\""),
    ("overlong-unicode-escape", "\"\\u{1234567}\""),
    ("lone-surrogate-unicode-escape", "\"\\u{D800}\""),
    ("out-of-range-unicode-escape", "\"\\u{110000}\""),
    ("unicode-escape-in-byte", "b\"\\u{41}\""),
    ("non-ascii-char-in-byte", "b\"é\""),
    ("nul-in-c-str", "c\"\\0\""),
    ("unskipped-whitespace-warning", "\"a\\\n \u{a0}b\""),
    ("multiple-skipped-lines-warning", "\"a\\\n\n b\""),
];

#[test]
fn codes() {
    let folder = empty_folder("codes");
    for (code, text) in CODES {
        let text = text.replace("HASHES", &"#".repeat(256));
        let text = text.replace("DASHES", &"-".repeat(256));
        let mut program = rust_lex(&folder, &["check", "--format", "json", "-"]);
        let ended = run_with_input(&mut program, text.as_bytes());
        let objects = text_of(&ended.stdout);
        assert_eq!(
            objects.matches("{\"file\":").count(),
            1,
            "{text:?}: {objects}"
        );
        assert!(
            objects.contains(&format!("\"code\":\"{code}\",")),
            "{text:?}: {objects}"
        );
    }
}
