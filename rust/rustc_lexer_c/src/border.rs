//! The exported C functions. Each builds slices from its pointers and lengths, and calls the generated function with
//! the same name.

use crate::generated::batch::CPlace;
use crate::generated::escapes::CUnit;
use crate::generated::head::CHead;
use crate::generated::raw_str::{CGuardedStr, CRawStrError};
use crate::generated::relex::{CEdit, CRelexing};
use crate::generated::token::CToken;
use core::panic::PanicInfo;
use core::slice::{from_raw_parts, from_raw_parts_mut};

/// Limits a length to the maximum length of a slice of `T`. No object is longer, so a valid length does not change.
fn short<T>(len: usize) -> usize {
    len.min(isize::MAX as usize / size_of::<T>())
}

/// Returns the items at a pointer as a slice. The pointer can be null if the length is 0.
unsafe fn read<'a, T>(items: *const T, len: usize) -> &'a [T] {
    if len == 0 {
        return &[];
    }
    // SAFETY: the caller guarantees `len` items.
    unsafe { from_raw_parts(items, short::<T>(len)) }
}

/// Returns the items at a pointer as a mutable slice. The pointer can be null if the length is 0.
unsafe fn write<'a, T>(items: *mut T, len: usize) -> &'a mut [T] {
    if len == 0 {
        return &mut [];
    }
    // SAFETY: the caller guarantees `len` items, and that nothing else uses them.
    unsafe { from_raw_parts_mut(items, short::<T>(len)) }
}

/// Defines the exported functions of each module, with the signatures in Rust. C passes a slice as a pointer and a
/// length.
macro_rules! calls {
    ($($module:ident { $(fn $name:ident($($parameters:tt)*) -> $answer:ty;)* })*) => {
        $($(calls!(@ $module $name $answer [] [] $($parameters)*,);)*)*
    };
    (@ $module:ident $name:ident $answer:ty [$($crossing:tt)*] [$($passed:tt)*] $(,)?) => {
        /// The function with this name in `rustc_lexer.h`.
        #[unsafe(no_mangle)]
        unsafe extern "C" fn $name($($crossing)*) -> $answer {
            crate::generated::$module::$name($($passed)*)
        }
    };
    (@ $m:ident $n:ident $a:ty [$($c:tt)*] [$($p:tt)*] $item:ident: &[$type:ty], $($rest:tt)*) => {
        // SAFETY: the caller meets the requirements of the header.
        calls!(@ $m $n $a [$($c)* $item: *const $type, len: usize,] [$($p)* unsafe { read($item, len) },] $($rest)*);
    };
    (@ $m:ident $n:ident $a:ty [$($c:tt)*] [$($p:tt)*] $item:ident: &mut [$type:ty], $($rest:tt)*) => {
        // SAFETY: the caller meets the requirements of the header.
        calls!(@ $m $n $a [$($c)* $item: *mut $type, len: usize,] [$($p)* unsafe { write($item, len) },] $($rest)*);
    };
    (@ $m:ident $n:ident $a:ty [$($c:tt)*] [$($p:tt)*] $item:ident: $type:ty, $($rest:tt)*) => {
        calls!(@ $m $n $a [$($c)* $item: $type,] [$($p)* $item,] $($rest)*);
    };
}

#[rustfmt::skip]
calls! {
    status {
        fn rustc_lexer_check(text: &[u8]) -> u32;
    }
    batch {
        fn rustc_lexer_tokens(text: &[u8], place: &mut CPlace, buffer: &mut [CToken], count: &mut usize) -> u32;
        fn rustc_lexer_tokens_unchecked(
            text: &[u8], place: &mut CPlace, buffer: &mut [CToken], count: &mut usize
        ) -> u32;
        fn rustc_lexer_tokens_in(
            text: &[u8], edition: u32, place: &mut CPlace, buffer: &mut [CToken], count: &mut usize
        ) -> u32;
        fn rustc_lexer_tokens_in_unchecked(
            text: &[u8], edition: u32, place: &mut CPlace, buffer: &mut [CToken], count: &mut usize
        ) -> u32;
        fn rustc_lexer_first_token_unchecked(text: &[u8], frontmatter_allowed: u32) -> CToken;
    }
    relex {
        fn rustc_lexer_relex(
            text: &[u8], old: &[CToken], edit: &CEdit, edition: u32, relexing: &mut CRelexing, buffer: &mut [CToken],
            count: &mut usize
        ) -> u32;
        fn rustc_lexer_relex_unchecked(
            text: &[u8], old: &[CToken], edit: &CEdit, edition: u32, relexing: &mut CRelexing, buffer: &mut [CToken],
            count: &mut usize
        ) -> u32;
    }
    head {
        fn rustc_lexer_body_edit(
            text: &[u8], edit: &CEdit, head: &mut CHead, body_edit: &mut CEdit, head_kept: &mut u32
        ) -> u32;
        fn rustc_lexer_body_edit_unchecked(
            text: &[u8], edit: &CEdit, head: &mut CHead, body_edit: &mut CEdit, head_kept: &mut u32
        ) -> u32;
    }
    offsets {
        fn rustc_lexer_token_start_at(tokens: &[CToken], offset: usize, number: &mut usize, start: &mut usize) -> bool;
    }
    places {
        fn rustc_lexer_strip_shebang(text: &[u8], line_len: &mut usize) -> u32;
        fn rustc_lexer_strip_shebang_unchecked(text: &[u8], line_len: &mut usize) -> u32;
        fn rustc_lexer_settled(text: &[u8], end: &mut usize) -> u32;
        fn rustc_lexer_settled_unchecked(text: &[u8], end: &mut usize) -> u32;
    }
    boundary {
        fn rustc_lexer_is_token_boundary(text: &[u8], at: usize, edition: u32, is: &mut u32) -> u32;
    }
    splice {
        fn rustc_lexer_splice(
            buffer: &mut [CToken], count: &mut usize, kept_front: usize, kept_back: usize, lexed: &[CToken]
        ) -> u32;
    }
    raw_str {
        fn rustc_lexer_validate_raw_str(text: &[u8], prefix_len: u32, error: &mut CRawStrError) -> u32;
        fn rustc_lexer_validate_raw_str_unchecked(text: &[u8], prefix_len: u32, error: &mut CRawStrError) -> u32;
        fn rustc_lexer_starts_raw_unchecked(text: &[u8], prefix_len: u32) -> bool;
        fn rustc_lexer_guarded_str(text: &[u8], string: &mut CGuardedStr) -> u32;
        fn rustc_lexer_guarded_str_unchecked(text: &[u8], string: &mut CGuardedStr) -> u32;
    }
    escapes {
        fn rustc_lexer_unescape(text: &[u8], mode: u32, passed: usize, buffer: &mut [CUnit], count: &mut usize) -> u32;
        fn rustc_lexer_unescape_unchecked(
            text: &[u8], mode: u32, passed: usize, buffer: &mut [CUnit], count: &mut usize
        ) -> u32;
        fn rustc_lexer_literal_errors(
            text: &[u8], mode: u32, passed: usize, buffer: &mut [CUnit], count: &mut usize
        ) -> u32;
        fn rustc_lexer_literal_errors_unchecked(
            text: &[u8], mode: u32, passed: usize, buffer: &mut [CUnit], count: &mut usize
        ) -> u32;
    }
    errors {
        fn rustc_lexer_class(text: &[u8], token: &CToken, edition: u32, number: &mut u32) -> u32;
        fn rustc_lexer_token_error(text: &[u8], token: &CToken, edition: u32, number: &mut u32) -> u32;
        fn rustc_lexer_token_error_message(
            text: &[u8], token: &CToken, edition: u32, buffer: &mut [u8], written: &mut usize
        ) -> u32;
    }
    highlighted {
        fn rustc_lexer_write_highlighted(
            text: &[u8], format: u32, edition: u32, count: usize, buffer: &mut [u8], written: &mut usize
        ) -> u32;
    }
    classes {
        fn rustc_lexer_is_ident(text: &[u8], is: &mut u32) -> u32;
        fn rustc_lexer_is_ident_unchecked(text: &[u8]) -> bool;
        fn rustc_lexer_is_whitespace(code: u32) -> bool;
        fn rustc_lexer_is_horizontal_whitespace(code: u32) -> bool;
        fn rustc_lexer_is_id_start(code: u32) -> bool;
        fn rustc_lexer_is_id_continue(code: u32) -> bool;
    }
    abi {
        fn rustc_lexer_abi_1() -> u32;
    }
}

// A shared library must link with the C library, because it uses `abort` and `memcpy`.
#[cfg_attr(unix, link(name = "c"))]
unsafe extern "C" {
    safe fn abort() -> !;
}

/// Aborts the process. The source is proved not to panic if the caller meets the requirements of the header.
#[panic_handler]
fn stop(_: &PanicInfo<'_>) -> ! {
    abort()
}
