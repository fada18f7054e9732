//! Kinds of tokens: those with fields, trivia and delimiters.

use rustc_lexer::{FrontmatterAllowed, TokenKind, tokenize};

/// One token of each family.
#[test]
fn kinds_with_fields() {
    for text in [
        "// a", "/* a */", "1", "1.5", "'a'", "\"a\"", "r\"a\"", "'a",
    ] {
        let kinds = tokenize(text, FrontmatterAllowed::No).map(|token| token.kind);
        assert!(kinds.into_iter().all(TokenKind::has_fields), "{text}");
    }
    let front = tokenize("---\n---", FrontmatterAllowed::Yes).next();
    assert!(front.is_some_and(|token| token.kind.has_fields()));
    for text in [
        "a",
        "r#a",
        "k#a",
        "a#",
        "'a#",
        "'r#a",
        "#\"",
        "\u{1F600}",
        " ",
        "+;@",
        "\0",
    ] {
        let kinds = tokenize(text, FrontmatterAllowed::No).map(|token| token.kind);
        assert!(!kinds.into_iter().any(TokenKind::has_fields), "{text}");
    }
    assert!(!TokenKind::Eof.has_fields());
}

/// Trivia, opening and closing delimiters.
#[test]
fn trivia_and_delimiters() {
    let texts = |text, allowed, is: fn(TokenKind) -> bool| {
        let tokens = tokenize(text, allowed).pieces();
        let some = tokens.filter(|piece| is(piece.token.kind));
        some.map(|piece| piece.text).collect::<Vec<_>>().join("|")
    };
    let rest = "({[<a 1 'a /// a\n//! a\n/** a *//*! a */>]});,//\n/**// *// a\n//// a\n/* a";
    let text = format!("---\n---\n{rest}");
    let texts = |is| texts(&text, FrontmatterAllowed::Yes, is);
    assert_eq!(texts(TokenKind::is_open), "(|{|[");
    assert_eq!(texts(TokenKind::is_close), "]|}|)");
    let trivia = texts(TokenKind::is_trivia);
    assert_eq!(trivia, "\n| | | |\n|\n|//|\n|/**/| |// a|\n|//// a|\n|/* a");
}
