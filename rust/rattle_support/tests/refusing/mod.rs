//! An allocator that can fail, for tests here and in other packages.

use std::alloc::{GlobalAlloc, Layout, System};
use std::cell::Cell;
use std::ptr::null_mut;

thread_local! {
    /// The number of allocations of this thread that still succeed, counted down.
    static GIVEN: Cell<usize> = const { Cell::new(usize::MAX) };
    /// Whether allocations after the first failure succeed.
    static ONCE: Cell<bool> = const { Cell::new(false) };
    /// The size of the largest allocation of this thread, in bytes.
    static GREATEST: Cell<usize> = const { Cell::new(0) };
}

/// The allocator of the system, which can fail.
struct Refusing;

fn is_given(size: usize) -> bool {
    GREATEST.set(GREATEST.get().max(size));
    let left = GIVEN.get().checked_sub(1);
    let after = if ONCE.get() { usize::MAX } else { 0 };
    GIVEN.set(left.unwrap_or(after));
    left.is_some()
}

// SAFETY: each method calls the system's allocator, or returns null, which means that the allocation failed.
unsafe impl GlobalAlloc for Refusing {
    unsafe fn alloc(&self, layout: Layout) -> *mut u8 {
        if is_given(layout.size()) {
            unsafe { System.alloc(layout) }
        } else {
            null_mut()
        }
    }

    unsafe fn dealloc(&self, at: *mut u8, layout: Layout) {
        unsafe { System.dealloc(at, layout) }
    }

    unsafe fn realloc(&self, at: *mut u8, layout: Layout, size: usize) -> *mut u8 {
        if is_given(size) {
            unsafe { System.realloc(at, layout, size) }
        } else {
            null_mut()
        }
    }
}

#[global_allocator]
static ALLOCATOR: Refusing = Refusing;

/// Returns the result of a call if this many of its allocations succeed.
pub fn given<T>(count: usize, call: impl FnOnce() -> T) -> T {
    GIVEN.set(count);
    let answer = call();
    GIVEN.set(usize::MAX);
    answer
}

/// Returns the result of a call if only its first allocation fails: a panic allocates too.
#[allow(dead_code)] // not every test has calls that panic
pub fn refused_once<T>(call: impl FnOnce() -> T) -> T {
    ONCE.set(true);
    let answer = given(0, call);
    ONCE.set(false);
    answer
}

/// Repeats a call on new values: its first allocation fails, then its second, and so on, until none fails. In one pass,
/// all later allocations fail too; in another, only one fails. Each time it checks the value and the result. Returns
/// how many allocations failed, which is the same in both passes.
#[allow(dead_code)] // not every test uses it
pub fn in_turn<H, T, E>(
    make: impl Fn() -> H,
    call: impl Fn(&mut H) -> Result<T, E>,
    mut check: impl FnMut(H, Result<T, E>),
) -> usize {
    let mut is_over = |count: &usize| {
        let mut held = make();
        let answer = given(*count, || call(&mut held));
        let is_over = answer.is_ok();
        check(held, answer);
        is_over
    };
    let counts = [false, true].map(|once| {
        ONCE.set(once);
        (0..1000).find(&mut is_over).expect("at most 999 requests")
    });
    ONCE.set(false);
    assert_eq!(counts[0], counts[1]);
    counts[0]
}

/// Returns the number of allocations of a call, if there are at most 100.
#[allow(dead_code)] // not every test counts them
pub fn requests<T>(call: impl FnOnce() -> T) -> usize {
    GIVEN.set(100);
    call();
    100 - GIVEN.replace(usize::MAX)
}

/// Returns the size of the largest allocation of a call, in bytes.
#[allow(dead_code)] // not every test measures them
pub fn greatest_request<T>(call: impl FnOnce() -> T) -> usize {
    GREATEST.set(0);
    call();
    GREATEST.get()
}
