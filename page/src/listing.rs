//! The listing of tokens, as the program `lexdump` prints it.

use crate::source::Source;
use lexdump_run::rattle_std::io;
use lexdump_run::{Watched, write_listing};
use std::ops::Range;

/// A writer that collects the bytes of a listing.
#[derive(Default)]
struct Text(Vec<u8>);

impl io::Write for Text {
    fn write(&mut self, bytes: &[u8]) -> io::Result<usize> {
        self.0.extend(bytes);
        Ok(bytes.len())
    }

    fn flush(&mut self) -> io::Result<()> {
        Ok(())
    }
}

/// Returns the lines for a range of tokens, by index. Their offsets start at 0.
pub fn write(source: &Source, numbers: Range<usize>, edition: usize) -> String {
    let mut output = Watched::new(Text::default());
    let tokens = &source.tokens(edition)[numbers];
    write_listing(&mut output, 0, tokens).expect("writing to a list succeeds");
    String::from_utf8(output.into_inner().0).expect("a listing is a text")
}
