//! The functions of `memchr` and `unicode-ident` that the lexer uses, in the selected versions, or in `stand_ins`.

use memchr::{memchr, memchr2, memchr3, memmem, memrchr};
use unicode_ident::{is_xid_continue, is_xid_start};

#[test]
fn searches() {
    for (bytes, wanted) in [
        ("-cba-ab-", [Some(3), Some(2), Some(1), Some(5), Some(5)]),
        ("ab", [Some(0); 5]),
        ("-c-b", [None, Some(3), Some(1), None, None]),
        ("a", [Some(0), Some(0), Some(0), Some(0), None]),
        ("", [None; 5]),
    ] {
        let bytes = bytes.as_bytes();
        let three = memchr3(b'a', b'b', b'c', bytes);
        let two = memchr2(b'a', b'b', bytes);
        let pair = memmem::find(bytes, b"ab");
        let found = [memchr(b'a', bytes), two, three, memrchr(b'a', bytes), pair];
        assert_eq!(found, wanted, "{bytes:?}");
    }
}

/// Identifiers, also with characters of Unicode 15.1 and later.
#[test]
fn identifiers() {
    for (text, is) in [
        ("azAZé\u{2139}\u{30000}", (true, true)),
        (
            "_09\u{b7}\u{301}\u{200c}\u{200d}\u{30fb}\u{ff65}",
            (false, true),
        ),
        ("\0 -`@[{^😀\u{a0}\u{feff}\u{10ffff}", (false, false)),
    ] {
        for c in text.chars() {
            assert_eq!((is_xid_start(c), is_xid_continue(c)), is, "{c:?}");
        }
    }
}
