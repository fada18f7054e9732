//! The example that prints the values of string literals and the texts of doc comments.

#[allow(dead_code, reason = "the test does not read a file")]
#[path = "../examples/values.rs"]
mod values;

#[test]
fn string_literals_and_doc_comments() {
    for (text, expected) in [
        ("let a = \"b\\n\\u{e9}\" + 'c';", &[(8, "b\n\u{e9}")][..]),
        ("r#\"\\n\"\"#s", &[(0, "\\n\"")]),
        ("\"a\\\n   b\"", &[(0, "ab")]),
        ("\"a\\qb\" b\"c\" c\"d\" \"", &[(0, "ab")]),
        ("/// a\n//! b\n// c\n", &[(0, " a"), (6, " b")]),
        (
            "/** a\n * b */ /*! c */ /* d */",
            &[(0, " a\n * b "), (14, " c ")],
        ),
        ("#!/bin/sh\n\"a\"", &[(10, "a")]),
        ("fn main() {}", &[]),
    ] {
        let found = values::values(text);
        let found: Vec<_> = found
            .iter()
            .map(|(start, value)| (*start, value.as_str()))
            .collect();
        assert_eq!(found, expected, "{text}");
    }
}
