//! Each allocation of the calls of a `LexedText` fails in turn: the call returns an error, and nothing changes.

mod made;
#[path = "../../rattle_support/tests/refusing/mod.rs"]
mod refusing;

use made::{counts, edit, token};
use rattle_support::Global;
use refusing::{given, greatest_request, in_turn, refused_once, requests};
use rustc_lexer::{
    AllocError, Checked, EditError, EditStop, Edition, JoinError, JoinedText, LexedDocument,
    LexedText, Relexed, Stepper, Steps, Token, TokenKind, generated, tokenize_document,
    tokenize_in,
};
use std::ops::Range;
use std::panic::{AssertUnwindSafe, catch_unwind};

type Make = fn(&str) -> Result<(), EditError>;

/// The constructors.
const MAKE: [Make; 4] = [
    |text| LexedText::try_new_in(text, Edition::E2024).map(drop),
    |text| LexedText::try_with(text, Steps::new()).map(drop),
    |text| LexedDocument::try_new_in(text, Edition::E2024).map(drop),
    |text| LexedDocument::try_with(text, Steps::new()).map(drop),
];

/// One allocation is for the text, and one for its tokens.
#[test]
fn constructors() {
    let answers = [Ok(()), Err(EditError::Memory)];
    for text in ["ab", "a 😀 é", "a b c */ d", "ab cd"] {
        for make in MAKE {
            let check = |_, answer| assert!(answers.contains(&answer), "{answer:?}");
            assert_eq!(in_turn(|| text, |text| make(text), check), 2, "{text:?}");
        }
    }
}

/// Asserts that the value has this text and these tokens, and that its pieces are the text that they cover.
macro_rules! assert_held {
    ($held:ident, $text:expr, $tokens:expr) => {{
        let tokens = $tokens;
        let pieces: String = $held.pieces().map(|piece| piece.text).collect();
        assert_eq!(($held.text(), &*pieces), (&*$text, tokens.as_str()));
        let of_pieces = $held.pieces().map(|piece| piece.token);
        assert!(of_pieces.eq(tokens.clone()), "pieces of {pieces:?}");
        assert!(tokens.eq($held.tokens().iter().copied()), "{pieces:?}");
    }};
}

/// The lexer as a stepper that counts its steps.
#[derive(Clone)]
struct Counting(Steps, usize);

impl Stepper for Counting {
    fn step(&mut self, rest: &str) -> Token {
        self.1 += 1;
        self.0.step(rest)
    }
}

/// Applies an edit while each of its allocations fails in turn: nothing changes, no step is made that the edit does not
/// make, and then the edit succeeds. Returns its counts, its steps, and the number of its allocations.
macro_rules! edits {
    ($edit:ident, $Kept:ident, $tokenize:ident $(, $tokens_start:ident)?) => {
        fn $edit(text: &str, range: Range<usize>, insert: &str) -> (Relexed, usize, usize) {
            let make = || $Kept::try_with(text, Counting(Steps::new(), 0)).unwrap();
            let (old, mut new) = (make(), make());
            let wanted = new.edit(range.clone(), insert);
            let steps_past = |lexed: &$Kept<Checked<Counting>>| lexed.stepper().1 - old.stepper().1;
            let asked = in_turn(
                make,
                |lexed| lexed.try_edit(range.clone(), insert),
                |mut lexed, answer| {
                    let steps = steps_past(&lexed);
                    assert!(steps <= wanted.lexed, "{steps} steps");
                    if answer.is_err() {
                        assert_eq!(answer, Err(EditError::Memory));
                        assert_held!(lexed, text, $tokenize(text, Edition::E2024));
                        $(assert_eq!(lexed.$tokens_start(), old.$tokens_start());)?
                        assert!((0..text.len()).all(|at| lexed.token_start_at(at) == old.token_start_at(at)));
                    }
                    let answer = answer.or_else(|_| lexed.try_edit(range.clone(), insert));
                    assert_eq!(answer, Ok(wanted));
                    let made = [&text[..range.start], insert, &text[range.end..]].concat();
                    assert_held!(lexed, made, $tokenize(&made, Edition::E2024));
                },
            );
            (wanted, steps_past(&new), asked)
        }
    };
}

edits!(text_edit, LexedText, tokenize_in);
edits!(
    document_edit,
    LexedDocument,
    tokenize_document,
    tokens_start
);

/// The removed text is one allocation, and so is room in the text for a longer insertion. One to four lexed tokens are
/// one, and five are two. The list of five tokens of the second text has no room for seven, which is one. An edit that
/// changes nothing makes none.
#[test]
fn edits_of_texts() {
    for (text, range, insert, [front, lexed, back], asked) in [
        ("ab", 2..2, "c", [0, 1, 0], 2),
        ("a 😀 é", 2..6, "zz 1.", [0, 5, 2], 5),
        ("a b c */ d", 2..2, "/*", [0, 3, 2], 2),
        ("ab cd", 0..3, "", [0, 0, 1], 1),
        ("ab cd", 0..0, "", [0, 0, 3], 0),
    ] {
        let wanted = (counts(front, lexed, back), lexed, asked);
        assert_eq!(text_edit(text, range, insert), wanted, "{text:?}");
    }
    let text = "fn f() { let a = \"b\"; }\n".repeat(40);
    for insert in ["", "a", "/*", "\"", &"x + ".repeat(400)] {
        assert!(text_edit(&text, 300..310, insert).2 > 0, "{insert:?}");
    }
}

/// `set_text` allocates as much as its edit.
#[test]
fn set_text() {
    let (old, new) = ("a b c d", "a b + d");
    let check = |lexed: LexedText, answer: Result<Relexed, EditError>| {
        let text = if answer.is_ok() { new } else { old };
        assert!(answer.is_ok() || answer == Err(EditError::Memory));
        assert_held!(lexed, text, tokenize_in(text, Edition::E2024));
    };
    let set = |lexed: &mut LexedText| lexed.try_set_text(new);
    let asked = in_turn(|| LexedText::new(old), set, check);
    assert_eq!(asked, text_edit(old, 4..5, "+").2);
}

/// A letter after a head, a letter in it, a fence, and a bracket that turns a shebang line into an attribute. Then an
/// edit that removes the head of a long document.
#[test]
fn edits_of_documents() {
    for (text, range, insert, [front, lexed, back]) in [
        ("#!a\n---\nb\n---\nfn", 16..16, "x", [3, 1, 0]),
        ("---\nb\n---\nfn", 5..5, "c", [0, 1, 2]),
        ("---\na\n--\nb", 8..8, "-", [0, 3, 0]),
        ("#!\nb", 3..3, "[", [0, 4, 1]),
    ] {
        let (relexed, _, asked) = document_edit(text, range, insert);
        assert_eq!(relexed, counts(front, lexed, back), "{text:?}");
        assert!(asked > 0, "{text:?}");
    }
    let text = format!("#!/bin/sh\n---\na\n---\nb{}", " + 'c".repeat(200));
    assert!(document_edit(&text, 0..0, &" + d".repeat(200)).2 > 0);
}

/// Exactly the edits before the allocation failure stay applied.
#[test]
fn lists_of_edits() {
    macro_rules! lists {
        ($Kept:ident, $tokenize:ident, $texts:expr, $edits:expr) => {
            for each in [false, true] {
                let mut stops = [0; 3];
                in_turn(
                    || $Kept::new($texts[0]),
                    |lexed| match each {
                        true => lexed.edit_sequence(&$edits).map(drop).map_err(|it| it.stop),
                        false => lexed.edit_all(&$edits),
                    },
                    |lexed, answer| {
                        let made = match answer {
                            Ok(()) => 2,
                            Err(EditStop::Memory { at }) => at,
                            Err(stop) => panic!("{stop:?}"),
                        };
                        stops[made] += 1;
                        let text = $texts[made];
                        assert_held!(lexed, text, $tokenize(text, Edition::E2024));
                    },
                );
                assert!(!stops.contains(&0), "{stops:?}");
            }
        };
    }
    let (texts, edits) = (["ab", "abc", "abc d"], [edit(2, 2, "c"), edit(3, 3, " d")]);
    lists!(LexedText, tokenize_in, texts, edits);
    for word in &texts[..2] {
        let tokens = [token(TokenKind::Ident, word.len() as u32)];
        assert_eq!(LexedText::new(word).tokens(), tokens);
    }
    let texts = ["--\n---\nb", "---\n---\nb", "#!a\n---\n---\nb"];
    let edits = [edit(0, 0, "-"), edit(0, 0, "#!a\n")];
    lists!(LexedDocument, tokenize_document, texts, edits);
}

/// The same for a long list.
#[test]
fn a_long_list_of_edits() {
    let edits: Vec<_> = (0..70).map(|at| edit(3 * at, 3 * at + 1, "b+")).collect();
    let mut stops = Vec::new();
    for requests in 0.. {
        let mut lexed = LexedText::new("a ".repeat(70));
        let answer = given(requests, || lexed.edit_sequence(&edits));
        let made = match answer {
            Ok(_) => 70,
            Err(stopped) => match stopped.stop {
                EditStop::Memory { at } => at,
                stop => panic!("{stop:?}"),
            },
        };
        let text = "b+ ".repeat(made) + &"a ".repeat(70 - made);
        assert_held!(lexed, text, tokenize_in(&text, Edition::E2024));
        if made == 70 {
            break;
        }
        stops.push(made);
    }
    stops.dedup();
    assert!(stops.iter().copied().eq(0..70), "{stops:?}");
}

/// A batch is applied completely or not at all, and the error has the index of the last edit.
#[test]
fn batches_of_edits() {
    let (texts, edits) = (["ab cd", "xab + d"], [edit(0, 0, "x"), edit(2, 4, " + ")]);
    in_turn(
        || LexedText::new(texts[0]),
        |lexed| lexed.edit_batch(&edits),
        |lexed, answer| {
            let made = answer.is_ok();
            assert!(made || answer == Err(EditStop::Memory { at: 1 }));
            let text = texts[usize::from(made)];
            assert_held!(lexed, text, tokenize_in(text, Edition::E2024));
        },
    );
}

/// A batch that would make the text too long, by its insertions or with the rest of the text, allocates nothing.
#[test]
fn batches_that_are_too_long() {
    let insert = "a".repeat(1 << 20);
    let mut edits = vec![edit(0, 0, &insert); 4096];
    for last in [&insert[..], &insert[1..]] {
        edits[4095].insert = last;
        let mut lexed = LexedText::new("ab");
        let answer = given(0, || lexed.edit_batch(&edits));
        assert_eq!(answer, Err(EditStop::TooLong { at: 4095 }));
        assert_held!(lexed, "ab", tokenize_in("ab", Edition::E2024));
    }
}

/// An edit that splits a character is rejected before anything is allocated.
#[test]
fn an_invalid_edit() {
    let mut lexed = LexedText::new("é");
    let answer = given(0, || lexed.edit_all(&[edit(1, 2, "")]));
    assert_eq!(answer, Err(EditStop::Range { at: 0 }));
    assert_held!(lexed, "é", tokenize_in("é", Edition::E2024));
}

/// `set_edition` with two more tokens, by a new text and by the proved source, which lexes the old text again.
#[test]
fn set_edition() {
    macro_rules! editions {
        ($make:expr, $set_edition:ident, $text:ident, $tokenize:ident, $count:expr) => {
            let asked = in_turn(
                || $make,
                |lexed| lexed.$set_edition(Edition::E2018),
                |lexed, answer| {
                    let (edition, count) = match answer {
                        Ok(()) => (Edition::E2018, $count + 2),
                        Err(AllocError) => (Edition::E2024, $count),
                    };
                    assert_eq!((lexed.edition(), lexed.tokens().len()), (edition, count));
                    assert_held!(lexed, $text, $tokenize($text, edition));
                },
            );
            assert!(asked > 0);
        };
    }
    let text = "'r#foo";
    let proved = || generated::LexedText::new(Global, text).unwrap();
    editions!(LexedText::new(text), try_set_edition, text, tokenize_in, 1);
    editions!(proved(), set_edition, text, tokenize_in, 1);
    let text = "---\n---\n'r#foo";
    let new = || LexedDocument::new(text);
    let proved = || generated::LexedDocument::new(Global, text).unwrap();
    editions!(new(), try_set_edition, text, tokenize_document, 3);
    editions!(proved(), set_edition, text, tokenize_document, 3);
}

/// `set_edition` allocates only tokens, here one. A new text allocates its length.
#[test]
fn set_edition_copies_no_text() {
    let text = format!("/*{}*/", "a".repeat(1_000_000));
    let (mut part, mut document) = (LexedText::new(&text), LexedDocument::new(&text));
    for greatest in [
        greatest_request(|| part.set_edition(Edition::E2015)),
        greatest_request(|| document.set_edition(Edition::E2015)),
    ] {
        assert!(greatest < text.len() / 10, "{greatest} bytes");
    }
    assert!(greatest_request(|| LexedText::new(&text)) >= text.len());
}

/// A growing list of tokens gets room for the tokens that the rest of the text can have; for an edit, an eighth more.
#[test]
fn spare_capacity_of_tokens() {
    let (text, mut made) = ("x = [12, y];\n".repeat(5_600), None);
    let greatest = greatest_request(|| made = Some(LexedText::new(&text)));
    let mut lexed = made.unwrap();
    let taken = size_of_val(lexed.tokens());
    assert!(greatest < taken / 4 * 5, "{greatest} bytes for {taken}");
    lexed.shrink_to_fit();
    let greatest = greatest_request(|| lexed.edit(0..0, "x "));
    assert!(greatest < taken / 7 * 8, "{greatest} bytes for {taken}");
}

/// A `String` is kept with its capacity and returned: only tokens are allocated.
#[test]
fn a_string_is_not_copied() {
    let text = format!("/*{}*/", "a".repeat(1_000_000));
    macro_rules! strings {
        ($Kept:ident, $string:expr) => {
            let (string, mut kept) = ($string, None);
            let (at, room) = (string.as_ptr(), string.capacity());
            let greatest = greatest_request(|| kept = Some($Kept::from(string)));
            assert!(greatest < text.len() / 10, "{greatest} bytes");
            let kept = kept.unwrap();
            assert_eq!(kept, $Kept::new(&text));
            let given_back = kept.into_string();
            assert_eq!((given_back.as_ptr(), given_back.capacity()), (at, room));
            let string = $string;
            let (at, room) = (string.as_ptr(), string.capacity());
            let refused = given(0, || $Kept::try_from_string_in(string, Edition::E2024));
            let refused = refused.unwrap_err();
            assert_eq!(refused.error(), EditError::Memory);
            let other = refused.clone();
            assert!(other == refused && EditError::from(other) == EditError::Memory);
            let given_back = refused.into_string();
            assert_eq!((given_back.as_ptr(), given_back.capacity()), (at, room));
            assert_eq!(given_back, text);
        };
    }
    let with_room = || {
        let mut string = text.clone();
        string.reserve(1000);
        string
    };
    strings!(LexedText, text.clone());
    strings!(LexedDocument, text.clone());
    strings!(LexedText, with_room());
    strings!(LexedDocument, with_room());
}

/// A text of `u32::MAX` bytes is not too long, so the calls report out of memory.
#[cfg(target_pointer_width = "64")]
#[test]
fn the_longest_text() {
    use std::alloc::{GlobalAlloc, Layout, System};
    let len = u32::MAX as usize;
    // SAFETY: U+0000 is one byte that is 0. The system provides these bytes without touching them.
    let text = unsafe {
        let zeros = System.alloc_zeroed(Layout::array::<u8>(len).unwrap());
        assert!(!zeros.is_null());
        std::str::from_utf8_unchecked(std::slice::from_raw_parts(zeros, len))
    };
    let answers = MAKE.map(|make| given(0, || make(text)));
    assert_eq!(answers, [Err(EditError::Memory); 4]);
    let mut lexed = LexedText::new("ab");
    let edits = [edit(0, 1, "c"), edit(1, 1, &text[2..])];
    let answer = given(0, || lexed.edit_batch(&edits));
    assert_eq!(answer, Err(EditStop::Memory { at: 1 }));
    let edits = [edit(0, 1, "cd"), edit(1, 1, &text[2..])];
    let answer = given(0, || lexed.edit_batch(&edits));
    assert_eq!(answer, Err(EditStop::TooLong { at: 1 }));
}

/// Calls that return no error panic if an allocation fails. Then nothing changes.
#[test]
fn calls_that_panic() {
    type Call = fn(&mut LexedText, &mut LexedDocument);
    let calls: [Call; 8] = [
        |_, _| drop(LexedText::new("a")),
        |_, _| drop(LexedText::new_in("a", Edition::E2018)),
        |_, _| drop(LexedDocument::new("a")),
        |_, _| drop(LexedDocument::new_in("a", Edition::E2018)),
        |text, _| text.set_edition(Edition::E2015),
        |_, document| document.set_edition(Edition::E2015),
        |text, _| {
            text.edit(0..0, "a long text that takes memory");
        },
        |_, document| {
            document.edit(0..0, "a long text that takes memory");
        },
    ];
    for (number, call) in calls.into_iter().enumerate() {
        let (mut text, mut document) = (LexedText::new("'r#a"), LexedDocument::new("'r#a"));
        let call = AssertUnwindSafe(|| call(&mut text, &mut document));
        let said = refused_once(|| catch_unwind(call)).expect_err("it panics");
        let said = said.downcast_ref::<String>().expect("it says why");
        let is_said = said.ends_with("memory allocation failed");
        assert!(is_said, "{number}: {said}");
        assert_eq!((text.text(), document.text()), ("'r#a", "'r#a"));
        let editions = (text.edition(), document.edition());
        assert_eq!(editions, (Edition::E2024, Edition::E2024));
        assert_eq!((text.tokens().len(), document.tokens().len()), (1, 1));
    }
}

/// `shrink_to_fit` returns unused memory, so the next edit allocates it again. If the call cannot allocate, nothing
/// changes.
#[test]
fn shrink_to_fit() {
    let text = "a + b; ".repeat(100);
    let mut lexed = LexedText::new(&text);
    let mut document = LexedDocument::new(&text);
    let mut asked = [0, 1, 9].map(|count| {
        lexed.edit(0..0, &text);
        lexed.edit(0..text.len(), "");
        document.edit(0..0, &text);
        document.edit(0..text.len(), "");
        given(count, || lexed.shrink_to_fit());
        given(count, || document.shrink_to_fit());
        assert_eq!((lexed.text(), document.text()), (&*text, &*text));
        assert_eq!(lexed.tokens(), LexedText::new(&text).tokens());
        assert_eq!(document.tokens(), LexedDocument::new(&text).tokens());
        let asked = requests(|| lexed.edit(0..0, "a+"));
        assert_eq!(requests(|| document.edit(0..0, "a+")), asked);
        lexed.edit(0..2, "");
        document.edit(0..2, "");
        asked
    });
    asked.iter_mut().for_each(|asked| *asked -= 1);
    assert_eq!(asked, [0, 1, 2], "past that for the tokens that are lexed");
}

/// A piece is one allocation. If that fails, the piece is rejected and can be pushed later.
#[test]
fn joined_pieces() {
    let long = "b".repeat(100);
    for text in ["a", "// a", "a+"] {
        let mut wanted = JoinedText::new();
        wanted.push(text);
        let make = || wanted.clone();
        let check = |mut joined: JoinedText, answer| {
            if answer == Err(JoinError::Memory) {
                assert_eq!(joined.as_str(), text);
                joined.push(&long);
            }
            assert!(joined.as_str().ends_with(&long) && joined.as_str().starts_with(text));
        };
        assert_eq!(
            in_turn(make, |joined| joined.try_push(&long), check),
            1,
            "{text:?}"
        );
    }
}
