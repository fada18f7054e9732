//! Tests `Vec` and `String`. If an allocation fails, a call returns an error and nothing changes.
#![cfg(feature = "alloc")]

mod refusing;

use rattle_support::{AllocError, Global, String, Vec};
use refusing::{given, requests};
use std::fmt::Write;

fn text(text: &str) -> String {
    String::from_str(Global, text).unwrap()
}

type OnText = fn(&mut String) -> Result<(), AllocError>;

/// Calls on `aéb`, and the text after each if no allocation fails.
const ON_TEXTS: [(OnText, &str); 10] = [
    (|text| text.push('é'), "aébé"),
    (|text| text.push_str("a longer text"), "aéba longer text"),
    (
        |text| Write::write_str(text, "xyz").map_err(|_| AllocError),
        "aébxyz",
    ),
    (
        |text| text.replace_range(0..3, "a longer text"),
        "a longer textb",
    ),
    (|text| text.replace_range(4..4, "12345678"), "aéb12345678"),
    // one byte longer
    (|text| text.replace_range(0..3, "abcd"), "abcdb"),
    (|text| text.reserve(1000), "aéb"),
    (|text| text.push_str(""), "aéb"),
    (|text| text.replace_range(1..3, ""), "ab"),
    (|text| text.replace_range(0..3, "123"), "123b"),
];

#[test]
fn texts() {
    for (number, (call, wanted)) in ON_TEXTS.into_iter().enumerate() {
        let mut held = text("aéb");
        assert_eq!(call(&mut held), Ok(()), "call {number}");
        assert_eq!(held.as_str(), wanted, "call {number}");
        // The buffer is full, so each call that appends allocates.
        let mut held = text("aéb");
        let takes_none = number >= 7;
        let answer = given(0, || call(&mut held));
        assert_eq!(answer.is_ok(), takes_none, "call {number}");
        let stays = if takes_none { wanted } else { "aéb" };
        assert_eq!(held.as_str(), stays, "call {number}");
    }
    assert_eq!(given(0, || String::from_str(Global, "a")), Err(AllocError));
    let none = given(0, || String::from_str(Global, ""));
    assert_eq!(none, Ok(String::new(Global)));
    let mut held = text("aéb");
    given(0, || held.truncate(3));
    assert_eq!((held.as_str(), &*held.to_string()), ("aé", "aé"));
    // A width counts characters, as for every text in Rust.
    assert_eq!(std::format!("{held:>4}|{held:-<3}"), "  aé|aé-");
    let buffer = held.as_str().as_ptr();
    let owned = std::string::String::from(held);
    assert_eq!((owned.as_str(), owned.as_ptr()), ("aé", buffer));
    assert_eq!(String::from(owned).as_str().as_ptr(), buffer);
    let mut bytes = Vec::new(Global);
    bytes.extend_from_slice("aé".as_bytes()).unwrap();
    let held = given(0, || String::from_utf8(bytes));
    assert_eq!(held.unwrap().as_str(), "aé");
    let mut bytes = Vec::new(Global);
    bytes.extend_from_slice(b"a\xff").unwrap();
    let error = String::from_utf8(bytes.clone()).unwrap_err();
    assert_eq!(error.valid_up_to(), 1);
    bytes.truncate(1);
    assert_eq!(String::from_utf8(bytes).unwrap().as_str(), "a");
}

type OnList = fn(&mut Vec<u8>) -> Result<(), AllocError>;

/// Calls on 1, 2, 2, and the list after each if no allocation fails.
const ON_LISTS: [(OnList, &[u8]); 5] = [
    (|list| list.push(3), &[1, 2, 2, 3]),
    (
        |list| list.extend_from_slice(&[3; 9]),
        &[1, 2, 2, 3, 3, 3, 3, 3, 3, 3, 3, 3],
    ),
    (|list| list.resize(9, 4), &[1, 2, 2, 4, 4, 4, 4, 4, 4]),
    (|list| list.resize(2, 4), &[1, 2]),
    (|list| list.extend_from_slice(&[]), &[1, 2, 2]),
];

fn list() -> Vec<u8> {
    let mut list = Vec::new(Global);
    list.extend_from_slice(&[1, 2, 2]).unwrap();
    list
}

#[test]
fn lists() {
    for (number, (call, wanted)) in ON_LISTS.into_iter().enumerate() {
        let mut held = list();
        assert_eq!(call(&mut held), Ok(()), "call {number}");
        assert_eq!(held.as_slice(), wanted, "call {number}");
        // The list is full.
        let mut held = list();
        let is_full = (0..100).any(|_| given(0, || held.push(2)).is_err());
        assert!(is_full, "call {number}: there is room for 100 more");
        let full = held.clone();
        let answer = given(0, || call(&mut held));
        // The third call allocates only if the spare capacity is small.
        let takes_none = number >= 3;
        assert!(number == 2 || answer.is_ok() == takes_none, "call {number}");
        assert!(number >= 2 || held == full, "call {number}");
    }
    let mut held = list();
    held.as_mut_slice()[0] = 7;
    held.truncate(2);
    assert!((&held).into_iter().copied().eq([7, 2]) && held.clone().into_iter().eq([7, 2]));
    held.reserve_exact(90).unwrap();
    assert!(held.capacity() >= 92 && given(0, || held.resize(92, 0)).is_ok());
    assert_eq!(given(0, || held.reserve_exact(999)), Err(AllocError));
    let mut full = Vec::new(Global);
    assert_eq!(given(0, || full.resize(1, 0u8)), Err(AllocError));
    assert_eq!(full.len(), 0);
}

/// A list dereferences to its items, and a text to its bytes.
#[test]
fn dereferenced() {
    let (held, mut items) = (text("aéb"), list());
    assert_eq!((&*held, &*items), ("aéb", &[1, 2, 2][..]));
    items[2] = 7;
    assert_eq!(items.as_slice(), [1, 2, 7]);
}

/// If a call has spare capacity for only a part of its input, it fails and nothing changes.
#[test]
fn too_little_room() {
    for left in 0..20 {
        for (number, (call, wanted)) in ON_TEXTS.into_iter().enumerate() {
            let mut held = text(&["aéb", &"x".repeat(left)].concat());
            held.truncate(4);
            let is_ok = given(0, || call(&mut held)).is_ok();
            let stays = held.as_str() == "aéb";
            let made = held.as_str() == wanted;
            assert!(if is_ok { made } else { stays }, "call {number}, {left}");
        }
        for (number, (call, wanted)) in ON_LISTS.into_iter().enumerate() {
            let mut held = list();
            held.resize(3 + left, 0).unwrap();
            held.truncate(3);
            let is_ok = given(0, || call(&mut held)).is_ok();
            let stands = if is_ok { wanted } else { &[1, 2, 2] };
            assert_eq!(held.as_slice(), stands, "call {number}, {left}");
        }
    }
}

#[test]
fn error_message() {
    let error: std::boxed::Box<dyn std::error::Error + Send + Sync> = AllocError.into();
    assert_eq!(error.to_string(), "memory allocation failed");
    // A width has no effect, as for every error here.
    assert_eq!(std::format!("{AllocError:>26}"), "memory allocation failed");
}

/// Appending within reserved capacity does not allocate, however long the text was before.
#[test]
fn reserved_room() {
    let mut held = text(&"a".repeat(100));
    held.reserve(60).unwrap();
    let more = "b".repeat(60);
    assert_eq!(given(0, || held.push_str(&more)), Ok(()));
}

/// `reserve_exact` does not double the capacity.
#[test]
fn exact_reservation() {
    let mut items = list();
    items.resize(1000, 0).unwrap();
    items.shrink_to_fit();
    items.reserve_exact(1).unwrap();
    assert!((1001..1100).contains(&items.capacity()));
}

/// Growth is amortized: a thousand appending calls allocate about ten times.
#[test]
fn amortized_growth() {
    type Call = fn(&mut String, &mut Vec<u8>) -> Result<(), AllocError>;
    let calls: [Call; 8] = [
        |text, _| text.push('a'),
        |text, _| text.reserve(1).and_then(|()| text.push('a')),
        |text, _| text.push_str("a"),
        |text, _| text.replace_range(0..0, "a"),
        |text, _| Write::write_str(text, "a").map_err(|_| AllocError),
        |_, list| list.push(1),
        |_, list| list.extend_from_slice(&[1]),
        |_, list| list.resize(list.len() + 1, 1),
    ];
    for (number, call) in calls.into_iter().enumerate() {
        let (mut text, mut list) = (String::new(Global), Vec::new(Global));
        let asked = requests(|| (0..1000).all(|_| call(&mut text, &mut list).is_ok()));
        assert!(asked < 20, "call {number}: {asked} requests");
    }
}

/// Replaces nothing, a short range or a long one, before a long text.
#[test]
fn replace_range() {
    let e = |count| "é".repeat(count);
    let calls = [
        (2..4, "ab", std::format!("éab{}", e(98))),
        (2..4, "a", std::format!("éa{}", e(98))),
        (2..2, "a", std::format!("éa{}", e(99))),
        (2..6, "", e(98)),
        (2..8, "ten bytes.", std::format!("éten bytes.{}", e(96))),
        (198..200, "ab", std::format!("{}ab", e(99))),
    ];
    for (range, with, wanted) in calls {
        let mut held = text(&e(100));
        assert_eq!(held.replace_range(range.clone(), with), Ok(()));
        assert_eq!(held.as_str(), wanted, "{range:?} {with}");
    }
}

/// Unused capacity is freed. If the smaller allocation fails, the larger one is kept.
#[test]
fn shrink_to_fit() {
    let mut held = text("aéb");
    held.reserve(1000).unwrap();
    let mut items = list();
    items.resize(1000, 4).unwrap();
    items.truncate(3);
    let room = items.as_slice().as_ptr();
    given(0, || held.shrink_to_fit());
    given(0, || items.shrink_to_fit());
    assert_eq!((held.as_str(), items.as_slice()), ("aéb", &[1, 2, 2][..]));
    assert_eq!(items.as_slice().as_ptr(), room);
    assert_eq!(given(0, || held.push_str("123")), Ok(()));
    assert_eq!(given(0, || items.push(3)), Ok(()));
    held.shrink_to_fit();
    items.shrink_to_fit();
    assert_eq!(held.as_str(), "aéb123");
    assert_eq!(items.as_slice(), [1, 2, 2, 3]);
    assert_eq!(requests(|| held.shrink_to_fit()), 0, "it fits");
    assert_eq!(requests(|| items.shrink_to_fit()), 0, "they fit");
    assert_eq!(given(0, || held.push_str("1")), Err(AllocError));
    assert_eq!(given(0, || items.push(3)), Err(AllocError));
    held.truncate(0);
    items.truncate(0);
    held.shrink_to_fit();
    items.shrink_to_fit();
    assert_eq!(given(0, || held.push_str("1")), Err(AllocError));
    assert_eq!(given(0, || items.push(3)), Err(AllocError));
    // Capacity for a single element is freed as well.
    for len in [20, 1000] {
        let mut held = text(&"a".repeat(len));
        let mut items = list();
        items.resize(len, 4).unwrap();
        held.truncate(len - 1);
        items.truncate(len - 1);
        held.shrink_to_fit();
        items.shrink_to_fit();
        assert_eq!(given(0, || held.push_str("1")), Err(AllocError));
        assert_eq!(given(0, || items.push(3)), Err(AllocError));
    }
}
