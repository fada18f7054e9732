//! Tests `Vec` and `String` without an allocator: calls that would allocate fail, and all other calls succeed.
#![cfg(not(feature = "alloc"))]

use core::fmt::Write;
use rattle_support::{AllocError, Global, String, Vec};

#[test]
fn allocations_fail() {
    let mut list: Vec<u8> = Vec::new(Global);
    assert_eq!(list.push(1), Err(AllocError));
    assert_eq!(list.extend_from_slice(&[1]), Err(AllocError));
    assert_eq!(list.resize(1, 1), Err(AllocError));
    assert_eq!(list.extend_from_slice(&[]), Ok(()));
    assert_eq!(list.resize(0, 1), Ok(()));
    assert_eq!((list.capacity(), list.reserve_exact(0)), (0, Ok(())));
    assert_eq!(list.reserve_exact(1), Err(AllocError));
    // As in Rust, truncating to a larger length has no effect.
    list.truncate(0);
    list.truncate(1);
    list.shrink_to_fit();
    assert!(list.as_slice().is_empty() && list.as_mut_slice().is_empty() && list.is_empty());
    assert!(list.iter_mut().next().is_none());
    let mut text = String::new(Global);
    assert_eq!(String::from_str(Global, "a"), Err(AllocError));
    assert_eq!(String::from_str(Global, ""), Ok(String::new(Global)));
    assert_eq!(text.push('a'), Err(AllocError));
    assert_eq!(text.reserve(1), Err(AllocError));
    assert_eq!(text.replace_range(0..0, "a"), Err(AllocError));
    assert_eq!(text.replace_range(0..0, ""), Ok(()));
    assert_eq!(text.reserve(0), Ok(()));
    assert!(text.write_str("a").is_err() && text.write_str("").is_ok());
    text.truncate(0);
    text.truncate(1);
    text.shrink_to_fit();
    assert_eq!((text.as_str(), &*text), ("", ""));
}
