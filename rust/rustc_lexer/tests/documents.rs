//! Incrementally lexed documents, compared with a full re-lex.

mod made;
mod random;

use made::{counts, edit, token};
use random::Random;
use rattle_support::Global;
use rustc_lexer::incremental::{Change, Head, RelexState, Relexer};
use rustc_lexer::{
    EditStop, Edition, FrontmatterAllowed, LexedDocument, LexedText, Relexed, Stepper, Steps,
    Token, TokenKind, TokenStart, generated, strip_shebang, tokenize_as, tokenize_document,
};
use std::ops::Range;

/// A document with a shebang line and a frontmatter, and the offset of its body.
const SCRIPT: &str = "#!/bin/sh\n---\na\n---\nb'c'";
const BODY: usize = 19;

/// Random documents and edits consist of these: they start, end and break a shebang line or a frontmatter.
#[rustfmt::skip]
const BITS: &[&str] = &[
    "#!", "#", "!", "\u{feff}", "/", "[", "]", "#![", "bin/sh", "\n", "\n", "\n", "\r\n", "\r", " ", "\t", "\u{2028}",
    "---", "---\n", "\n---", "----", "--", "-", "---a\n", "---\nuse ", "cargo", "a.b", "use ", "\nuse ",
    "//", "//!", "\n//!", "/*", "*/", "/**", "\"", "'", "r#\"", "\"#", "'r#a", "##\"", "z\"", "é", "fn x", "1.",
];

impl Random {
    fn document(&mut self) -> String {
        let starts = ["", "#!/bin/sh\n", "#!\n", "\u{feff}", "\u{feff}#!/bin/sh\n"];
        let line = starts[self.below(starts.len())];
        let front = ["", "---\na\n---\n", "\n ---\n", " \n----\n---\n----\n"][self.below(4)];
        [line, front, &self.text(20)].concat()
    }

    /// A range on char boundaries, often at the start, and often short.
    fn range(&mut self, text: &str) -> Range<usize> {
        let first = [24, text.len()][self.below(2)];
        let most = [0, 1, 9, text.len()][self.below(4)];
        self.range_in(text, first, most)
    }
}

/// Asserts that the edition is this one, and that the tokens and everything derived from them are correct for the text.
fn check(lexed: &LexedDocument, edition: Edition, context: &str) {
    assert_eq!(lexed.edition(), edition, "{context}");
    check_tokens(lexed, edition, context);
}

fn check_tokens<S: Stepper>(lexed: &LexedDocument<S>, edition: Edition, context: &str) {
    let text = lexed.text();
    let mark = if text.starts_with('\u{feff}') { 3 } else { 0 };
    let line = mark + strip_shebang(&text[mark..]).unwrap_or(0);
    let scratch: Vec<Token> =
        tokenize_as(&text[line..], FrontmatterAllowed::Yes, edition).collect();
    assert_eq!(lexed.tokens(), scratch, "{context}");
    assert_eq!(lexed.tokens_start(), line, "{context}");
    assert!(tokenize_document(text, edition).eq(scratch.iter().copied()));
    let is_frontmatter = |token: &Token| matches!(token.kind, TokenKind::Frontmatter { .. });
    let head = scratch.iter().position(is_frontmatter);
    let head = head.map_or(0, |at| at + 1);
    let mut start = line;
    for (number, (piece, token)) in lexed.pieces().zip(&scratch).enumerate() {
        if number == head {
            let body = lexed.body_start();
            assert_eq!((body.index, body.offset), (head, start), "{context}");
        }
        let end = start + token.len as usize;
        let told = (piece.start as usize, piece.token, piece.text);
        assert_eq!(told, (start, *token, &text[start..end]), "{context}");
        start = end;
    }
    assert_eq!((lexed.pieces().len(), start), (scratch.len(), text.len()));
}

/// The counts of an edit that keeps the head and the start of the body.
fn of_body(
    before: &LexedDocument,
    after: &LexedDocument,
    range: &Range<usize>,
    insert: &str,
) -> Option<Relexed> {
    let (old, new) = (before.body_start(), after.body_start());
    let stays = old == new
        && before.tokens_start() == after.tokens_start()
        && before.tokens()[..old.index] == after.tokens()[..new.index];
    (stays && old.offset <= range.start).then(|| {
        let mut body = LexedText::new_in(&before.text()[old.offset..], before.edition());
        let relexed = body.edit(range.start - old.offset..range.end - old.offset, insert);
        Relexed {
            kept_front: old.index + relexed.kept_front,
            ..relexed
        }
    })
}

fn edit_and_check(lexed: &mut LexedDocument, range: Range<usize>, insert: &str) {
    let before = LexedDocument::new_in(lexed.text(), lexed.edition());
    let relexed = lexed.edit(range.clone(), insert);
    let mut text = before.text().to_string();
    text.replace_range(range.clone(), insert);
    let (old_text, edition) = (before.text(), before.edition());
    let context = format!("{old_text:?} with {insert:?} at {range:?}, in {edition:?}");
    assert_eq!(lexed.text(), text, "{context}");
    check(lexed, edition, &context);
    let (kept_front, kept_back) = (relexed.kept_front, relexed.kept_back);
    let (old, new) = (before.tokens(), lexed.tokens());
    let lexed_anew = kept_front..new.len() - kept_back;
    assert_eq!(relexed.changed_tokens(), lexed_anew, "{context}");
    assert_eq!(old[..kept_front], new[..kept_front], "{context}");
    let behind = [old.len() - kept_back, new.len() - kept_back];
    assert_eq!(old[behind[0]..], new[behind[1]..], "{context}");
    match of_body(&before, lexed, &range, insert) {
        Some(wanted) => assert_eq!(relexed, wanted, "{context}"),
        None => assert_eq!(kept_front, 0, "{context}"),
    }
    let painted = lexed.pieces_by_index(relexed.changed_tokens());
    let all = lexed.pieces().skip(kept_front);
    assert!(painted.eq(all.take(relexed.lexed)), "{context}");
}

/// Ten thousand edits of documents in each edition, or the number in the variable EDITS.
#[test]
fn random_edits_in_each_edition() {
    let asked = std::env::var("EDITS").map(|count| count.parse());
    let count: usize = asked.map_or(10_000, |count| count.expect("EDITS is a number"));
    for &edition in Edition::ALL {
        let mut random = Random(u64::from(edition.year()), BITS);
        let mut lexed = LexedDocument::new_in("", edition);
        for number in 0..count {
            if number % 12 == 0 {
                lexed = LexedDocument::new_in(random.document(), edition);
                check(&lexed, edition, "at the start");
            }
            let range = random.range(lexed.text());
            let insert = random.text(3);
            edit_and_check(&mut lexed, range, &insert);
        }
    }
}

#[test]
fn a_document_in_each_edition() {
    let mut lexed = LexedDocument::new("#!/bin/sh\n---\na\n---\n'r#a");
    check(&lexed, Edition::E2024, "at the start");
    for &edition in Edition::ALL {
        lexed.set_edition(edition);
        check(&lexed, edition, "in another edition");
        let made = LexedDocument::new_in(lexed.text(), edition);
        assert_eq!(made.tokens(), lexed.tokens());
    }
    assert!(lexed.try_set_edition(Edition::E2015).is_ok());
    check(&lexed, Edition::E2015, "in the first edition");
    let tried = LexedDocument::try_new_in(SCRIPT, Edition::E2021).unwrap();
    check(&tried, Edition::E2021, "where memory is given");
}

/// In another edition, a document with the same head has other tokens, both as a new document and by the call of the
/// proved source. Unused memory is freed, and nothing else changes.
#[test]
fn another_edition() {
    macro_rules! rows {
        ($make:expr, $set_edition:ident) => {
            let mut lexed = $make;
            let told = (lexed.edition(), lexed.tokens().len());
            assert_eq!(told, (Edition::E2021, 4));
            lexed.$set_edition(Edition::E2018).unwrap();
            let told = (lexed.edition(), lexed.tokens().len());
            assert_eq!(told, (Edition::E2018, 6));
            let body = lexed.body_start();
            assert_eq!((lexed.tokens_start(), body.index, body.offset), (3, 2, 11));
        };
    }
    let (text, edition) = ("#!a\n---\n---\n'r#foo", Edition::E2021);
    rows!(LexedDocument::new_in(text, edition), try_set_edition);
    let proved = generated::LexedDocument::new_in(Global, text, edition);
    rows!(proved.unwrap(), set_edition);
    let mut lexed = LexedDocument::new("#!a\n---\n---\nfn");
    lexed.edit(12..14, "");
    lexed.shrink_to_fit();
    let told = (lexed.edition(), lexed.text());
    assert_eq!(told, (Edition::E2024, "#!a\n---\n---\n"));
    let pieces = lexed
        .pieces_by_index(0..2)
        .map(|piece| (piece.start, piece.text));
    assert!(pieces.eq([(3, "\n"), (4, "---\n---")]));
}

/// Edits after the head, which is kept, and at each offset that changes it: the number of tokens kept at the front, and
/// the start of the body.
#[test]
fn edits_of_the_head() {
    for (range, insert, front, body) in [
        (24..24, "d", 3, BODY),
        (20..20, "fn ", 2, BODY),
        (2..9, "", 0, BODY - 7),
        (2..9, "[", 0, 0),
        (9..10, "", 0, 12),
        (10..11, "", 0, 9),
        (14..15, "bc", 0, BODY + 1),
        (16..17, "", 0, 23),
        (0..BODY, "", 0, 0),
    ] {
        let mut lexed = LexedDocument::new(SCRIPT);
        let relexed = lexed.try_edit(range.clone(), insert).unwrap();
        let told = (relexed.kept_front, lexed.body_start().offset);
        assert_eq!(told, (front, body), "{insert:?} at {range:?}");
        check(&lexed, Edition::E2024, "an edit of the head");
    }
}

/// The frontmatter has the same end, and its first line is now valid.
#[test]
fn an_edit_right_after_the_head() {
    let mut lexed = LexedDocument::new("---");
    let kinds = |lexed: &LexedDocument| lexed.tokens()[0].kind;
    let before = kinds(&lexed);
    edit_and_check(&mut lexed, 3..3, "\nuse a;");
    assert_eq!(lexed.body_start().offset, 3);
    assert!(kinds(&lexed) != before);
}

#[test]
fn a_list_of_edits() {
    let mut lexed = LexedDocument::new(SCRIPT);
    let edits = [
        edit(16, 19, ""),
        edit(16, 16, "---"),
        edit(BODY, BODY, "é"),
        edit(BODY + 1, BODY + 1, ""),
    ];
    assert_eq!(lexed.edit_all(&edits[..2]), Ok(()));
    assert_eq!(lexed.text(), SCRIPT);
    assert_eq!(lexed.edit_all(&edits), Err(EditStop::Range { at: 3 }));
    let wanted = [&SCRIPT[..BODY], "é", &SCRIPT[BODY..]].concat();
    assert_eq!(lexed.text(), wanted);
    check(&lexed, Edition::E2024, "a list of edits");
}

/// The tokens that lists of edits keep: after the head, and if one edit changes the head.
#[test]
fn tokens_kept_by_a_list() {
    for (edits, kept) in [
        ([edit(24, 24, "d"), edit(20, 20, "fn ")], counts(2, 4, 0)),
        ([edit(20, 20, "fn "), edit(14, 15, "bc")], counts(0, 5, 1)),
    ] {
        let mut lexed = LexedDocument::new(SCRIPT);
        assert_eq!(lexed.edit_sequence(&edits), Ok(kept), "{edits:?}");
        check(&lexed, Edition::E2024, "a list of edits");
    }
}

/// Long lists with an edit that inserts a frontmatter at the start: the third edit, before the second, and the second
/// itself.
#[test]
fn a_long_list_that_creates_a_head() {
    let before = [edit(8, 8, "d"), edit(6, 6, "e"), edit(0, 0, "---\n---\n")];
    let itself = [edit(8, 8, "d"), edit(1, 1, "-"), edit(9, 9, "e")];
    for (text, first) in [("     a b c\n", before), ("-- a b c d\n", itself)] {
        let text = text.repeat(20);
        let mut edits = first.to_vec();
        edits.extend((0..70).map(|at| edit(40 + 2 * at, 40 + 2 * at, "f")));
        let (mut lexed, mut made) = (LexedDocument::new(&*text), LexedDocument::new(&*text));
        let (mut front, mut back) = (usize::MAX, usize::MAX);
        for edit in &edits {
            let relexed = made.edit(edit.start..edit.stop, edit.insert);
            front = front.min(relexed.kept_front);
            back = back.min(relexed.kept_back);
        }
        let relexed = lexed.edit_sequence(&edits).unwrap();
        assert_eq!((relexed.kept_front, relexed.kept_back), (front, back));
        assert_eq!((lexed.text(), lexed.tokens()), (made.text(), made.tokens()));
        assert_eq!(lexed.tokens()[0].kind.name(), "Frontmatter");
        check(&lexed, Edition::E2024, "a head in a long list");
    }
}

/// A grammar whose tokens are single characters, and its steps.
#[derive(Clone)]
struct Characters(usize);

impl Stepper for Characters {
    fn step(&mut self, rest: &str) -> Token {
        self.0 += 1;
        let len = rest.chars().next().map_or(0, char::len_utf8);
        token(TokenKind::Unknown, len as u32)
    }
}

/// A stepper without a `fill` of its own, and a stepper with one: the tokens that start before the end, as many as fit.
#[test]
fn steppers_fill_up_to_an_end() {
    let mut buffer = [token(TokenKind::Eof, 0); 9];
    let mut by_characters = Characters(0);
    for (end, room, wanted) in [
        (0, 9, (0, 0)),
        (1, 9, (1, 1)),
        (2, 9, (2, 3)),
        (3, 9, (2, 3)),
        (4, 9, (3, 4)),
        (4, 1, (1, 1)),
    ] {
        let filled = by_characters.fill("aéb", end, &mut buffer[..room]);
        assert_eq!(filled, wanted);
    }
    assert_eq!(by_characters.0, 9);
    for (end, room, wanted) in [
        (3, 9, (1, 3)),
        (4, 9, (2, 4)),
        (5, 9, (3, 5)),
        (5, 2, (2, 4)),
    ] {
        let filled = Steps::new().fill("let x", end, &mut buffer[..room]);
        assert_eq!(filled, wanted);
    }
}

#[test]
fn contents_and_debug_output() {
    let lexed = LexedDocument::try_with(SCRIPT, Steps::new_in(Edition::E2018)).unwrap();
    check_tokens(&lexed, Edition::E2018, "by a stepper");
    let by_characters = LexedDocument::try_with("#!a\nbé", Characters(0)).unwrap();
    let lens = by_characters.tokens().iter().map(|token| token.len);
    assert!(lens.eq([1, 1, 2]));
    assert_eq!(by_characters.stepper().0, 3);
    let pieces = lexed.pieces_by_index(1..3);
    let pieces: Vec<_> = pieces.map(|piece| (piece.start, piece.text)).collect();
    assert_eq!(pieces, [(10, "---\na\n---"), (19, "\n")]);
    let empty = LexedDocument::default();
    assert_eq!((empty.text(), empty.tokens().len()), ("", 0));
    assert_eq!(empty.body_start().offset, 0);
    let shown = format!("{:?}", LexedDocument::new("#!a+"));
    let wanted = r##"LexedDocument { text: "#!a+", tokens: [], .. }"##;
    assert_eq!(shown, wanted);
    let shown = format!("{:?}", LexedDocument::new("+"));
    let wanted = r#"LexedDocument { text: "+", tokens: [Token { kind: Plus, len: 1 }], .. }"#;
    assert_eq!(shown, wanted);
}

/// Each call on a document with a stepper of the caller.
#[test]
fn calls_with_a_stepper() {
    macro_rules! calls {
        ($lexed:ident) => {
            let mut lexed = $lexed::try_with("aé", Characters(0)).unwrap();
            assert!(lexed.accepts(0..1, "b"));
            lexed.edit(0..1, "bc");
            assert!(lexed.try_edit(0..1, "").is_ok());
            assert_eq!(lexed.edit_all(&[edit(0, 1, "bc")]), Ok(()));
            assert_eq!(
                lexed.edit_sequence(&[]).map(|counts| counts.kept_front),
                Ok(3)
            );
            lexed.shrink_to_fit();
            assert_eq!((lexed.text(), lexed.tokens().len()), ("bcé", 3));
            let counts = (lexed.pieces().len(), lexed.pieces_by_index(1..2).len());
            assert_eq!(counts, (3, 1));
            assert!(lexed.stepper().0 >= 5);
            assert!(format!("{lexed:?}").starts_with(stringify!($lexed)));
            let second = lexed.clone();
            lexed.edit(0..1, "");
            assert_eq!((second.text(), second.tokens().len()), ("bcé", 3));
        };
    }
    calls!(LexedText);
    calls!(LexedDocument);
}

/// The tokens of a head.
fn tokens_of(head: Head) -> Vec<Token> {
    let space = token(TokenKind::Whitespace, head.space_len);
    let space = (head.space_len > 0).then_some(space);
    space.into_iter().chain(head.frontmatter).collect()
}

/// `ab cd ef` becomes `ab x y ef`, by a buffer of two tokens and by single steps.
#[test]
fn token_list_of_the_caller() {
    let [word, letter] = [2, 1].map(|len| token(TokenKind::Ident, len));
    let space = token(TokenKind::Whitespace, 1);
    let (old, text) = ([word, space, word, space, word], "ab x y ef");
    let change = Change {
        start: 3,
        old_end: 5,
        new_end: 6,
    };
    let mut relex = Relexer::begin(text, &old, change, TokenStart::default()).unwrap();
    let (mut steps, mut buffer) = (Steps::new(), [token(TokenKind::Eof, 0); 2]);
    assert_eq!(relex.fill(&mut steps, &mut buffer), 2);
    assert_eq!(buffer, [word, space]);
    // A second value continues where the first one stopped.
    let mut relex = Relexer::resume(text, &old, change, relex.state()).unwrap();
    assert_eq!(relex.next(&mut steps), Some(letter));
    assert!(!relex.is_done());
    assert_eq!(relex.fill(&mut steps, &mut buffer), 2);
    assert_eq!(buffer, [space, letter]);
    assert!(relex.is_done());
    assert_eq!(relex.fill(&mut steps, &mut buffer), 0);
    assert_eq!(relex.next(&mut steps), None);
    assert_eq!(relex.counts(), counts(0, 5, 2));
    let wanted = format!("Relexer {{ state: {:?}, .. }}", relex.state());
    assert_eq!(format!("{relex:?}"), wanted);
}

/// Changes that cannot have resulted in the text, and states that no call produces.
#[test]
fn invalid_changes_and_states() {
    let old = [1, 2].map(|len| token(TokenKind::Ident, len));
    let text = "aé";
    let change = |start, old_end, new_end| Change {
        start,
        old_end,
        new_end,
    };
    let begins = |change| Relexer::begin(text, &old, change, TokenStart::default()).is_some();
    assert!(begins(change(1, 3, 3)) && begins(change(0, u32::MAX as usize, 1)));
    for refused in [
        change(2, 2, 2),
        change(1, 1, 2),
        change(1, 0, 3),
        change(3, 3, 1),
        change(1, 1, 4),
        change(0, u32::MAX as usize + 1, 1),
    ] {
        assert!(
            !refused.is_valid_for(text) && !begins(refused),
            "{refused:?}"
        );
    }
    let change = change(1, 3, 3);
    let resumes = |state| Relexer::resume(text, &old, change, state).is_some();
    let start = Relexer::begin(text, &old, change, TokenStart::default());
    let start = start.unwrap().state();
    assert!(resumes(start));
    let spoil: [fn(&mut RelexState); 6] = [
        |state| state.at = 2,
        |state| state.at = 4,
        |state| state.lexed = state.at + 1,
        |state| state.back.index = 3,
        |state| (state.front.index, state.back.index) = (1, 0),
        |state| state.back.offset = usize::MAX,
    ];
    for spoil in spoil {
        let mut state = start;
        spoil(&mut state);
        assert!(!resumes(state), "{state:?}");
    }
}

/// For token lists of the caller, an edit of the body has the tokens and the counts of a `LexedDocument`.
#[test]
fn token_lists_of_documents() {
    let mut random = Random(55, BITS);
    for _ in 0..20_000 {
        let old = random.document();
        let (range, insert) = (random.range(&old), random.text(3));
        let mut held = LexedDocument::new(&old);
        let tokens = held.tokens().to_vec();
        let counts = held.edit(range.clone(), &insert);
        let (head, now) = (Head::find(&old), Head::find(held.text()));
        assert_eq!(now.tokens_start, held.tokens_start());
        assert_eq!(now.body, held.body_start().offset);
        let edit = Change {
            start: range.start,
            old_end: range.end,
            new_end: range.start + insert.len(),
        };
        let of_body = head.body_change(now, edit);
        let (body, old_body) = (&held.text()[now.body..], &tokens[head.count()..]);
        let change = of_body.change;
        let (index, offset) = (0, 0);
        let first = TokenStart { index, offset };
        let mut steps = Steps::new();
        let mut relex = Relexer::begin(body, old_body, change, first).unwrap();
        let mut again = relex.clone();
        let mut made = tokens_of(now);
        let front = relex.state().front.index;
        let kept = made.len() + front;
        made.extend(&old_body[..front]);
        while let Some(token) = relex.next(&mut steps) {
            made.push(token);
            let state = relex.state();
            let passed = state.at.checked_sub(change.new_end);
            assert!(passed.is_none_or(|passed| state.back.offset >= change.old_end + passed));
        }
        let mut wanted = relex.counts();
        assert_eq!(made.len(), kept + wanted.lexed);
        // The same with a buffer, which is full except at the end.
        let mut buffer = [token(TokenKind::Eof, 0); 3];
        let mut filled = Vec::new();
        while !again.is_done() {
            let count = again.fill(&mut steps, &mut buffer);
            filled.extend_from_slice(&buffer[..count]);
            assert!(count == buffer.len() || again.is_done());
        }
        assert_eq!(
            (filled, again.state()),
            (made[kept..].to_vec(), relex.state())
        );
        made.extend(&old_body[old_body.len() - wanted.kept_back..]);
        assert_eq!(made, held.tokens(), "{range:?} of {old:?} is {insert:?}");
        if of_body.keeps_head {
            wanted.kept_front += head.count();
        } else {
            wanted.lexed += now.count();
        }
        assert_eq!(counts, wanted, "{range:?} of {old:?} is {insert:?}");
    }
}
