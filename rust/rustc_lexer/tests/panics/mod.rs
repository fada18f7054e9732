//! Where a call panics, and its message. Also for other packages.
#![allow(dead_code, unused_macros)] // not each test uses all of it

use std::cell::Cell;
use std::panic::{self, AssertUnwindSafe, catch_unwind};
use std::sync::Once;

thread_local! {
    /// The file and the line of this thread's last panic.
    static LAST: Cell<(String, u32)> = const { Cell::new((String::new(), 0)) };
}

/// Returns the file and the line at which a call panics.
pub fn panic_place<T>(call: impl FnOnce() -> T) -> (String, u32) {
    static HOOK: Once = Once::new();
    HOOK.call_once(|| {
        let before = panic::take_hook();
        panic::set_hook(Box::new(move |info| {
            let at = info.location().unwrap();
            LAST.set((at.file().to_string(), at.line()));
            before(info);
        }));
    });
    panic_message(call);
    LAST.take()
}

/// Returns the message with which a call panics.
pub fn panic_message<T>(call: impl FnOnce() -> T) -> String {
    let payload = catch_unwind(AssertUnwindSafe(|| drop(call()))).expect_err("it does not panic");
    let message = payload.downcast_ref::<String>().map(String::as_str);
    let message = message.or_else(|| payload.downcast_ref::<&str>().copied());
    message.expect("the message is a text").to_string()
}

/// Asserts that a call panics in this line.
macro_rules! panics_here {
    ($call:expr) => {
        assert_eq!(
            crate::panics::panic_place(|| $call),
            (file!().to_string(), line!())
        )
    };
}

/// Returns 2^32 zero bytes, which the system provides without touching them.
#[cfg(target_pointer_width = "64")]
pub fn too_long() -> String {
    // SAFETY: U+0000 is one byte that is 0.
    unsafe { String::from_utf8_unchecked(vec![0; 1 << 32]) }
}
