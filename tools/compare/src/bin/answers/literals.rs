//! The values of literals, as lines, because the two escapers have different types.

use crate::lexers::line;

macro_rules! answers_of {
    ($name:ident, $escaper:ident) => {
        mod $name {
            use super::line;
            use $escaper::{
                Mode, check_for_errors, check_raw_byte_str, check_raw_c_str, check_raw_str,
                unescape_byte, unescape_byte_str, unescape_c_str, unescape_char, unescape_str,
            };

            const MODES: [Mode; 8] = [
                Mode::Char,
                Mode::Byte,
                Mode::Str,
                Mode::RawStr,
                Mode::ByteStr,
                Mode::RawByteStr,
                Mode::CStr,
                Mode::RawCStr,
            ];

            /// Writes all results for a text between the quotes of each kind of literal.
            pub fn answers(text: &str, lines: &mut String) {
                line(lines, "char", unescape_char(text));
                line(lines, "byte", unescape_byte(text));
                unescape_str(text, |range, unit| line(lines, "str", (range, unit)));
                unescape_byte_str(text, |range, unit| line(lines, "byte str", (range, unit)));
                unescape_c_str(text, |range, unit| line(lines, "C str", (range, unit)));
                check_raw_str(text, |range, unit| line(lines, "raw str", (range, unit)));
                check_raw_byte_str(text, |range, unit| {
                    line(lines, "raw byte str", (range, unit))
                });
                check_raw_c_str(text, |range, unit| line(lines, "raw C str", (range, unit)));
                for mode in MODES {
                    let of_mode = (mode.in_double_quotes(), mode.prefix_noraw());
                    line(lines, "mode", of_mode);
                    check_for_errors(text, mode, |range, error| {
                        line(lines, "error", (range, error.is_fatal(), error));
                    });
                }
            }
        }
    };
}

answers_of!(theirs, original_escaper);
answers_of!(ours, rustc_literal_escaper);

/// The functions that write the results of the original and of our crate.
pub const ANSWERS: [fn(&str, &mut String); 2] = [theirs::answers, ours::answers];
