//! Incremental lexing for tokens in lists of your own: lexes only what an edit changed.
//!
//! [`LexedText`](crate::LexedText) and [`LexedDocument`](crate::LexedDocument) store a text with its tokens. If your
//! program stores them in its own way, use [`Relexer`], with [`Head`] for a whole file.
//!
//! [`Relexer::begin`] returns `None` if the change cannot have resulted in the text. It cannot check that the tokens are
//! the tokens of the old text: with any others, the result has no meaning. [`Head::body_change`] checks nothing: with a
//! head or an edit of another text, the result has no meaning either, or it panics.
//!
//! # Example: a whole file
//!
//! The list contains the tokens of the body, which is the text after the head: a byte order mark, a shebang line and a
//! frontmatter.
//!
//! ```
//! use rustc_lexer::incremental::{Change, Head, Relexer};
//! use rustc_lexer::{Edition, Steps, Token, TokenStart, tokenize_document};
//!
//! struct File {
//!     text: String,
//!     head: Head,
//!     body: Vec<Token>,
//! }
//!
//! impl File {
//!     fn edit(&mut self, start: usize, stop: usize, insert: &str) {
//!         self.text.replace_range(start..stop, insert);
//!         let change = Change { start, old_end: stop, new_end: start + insert.len() };
//!         let head = Head::find(&self.text);
//!         let change = self.head.body_change(head, change).change;
//!         let text = &self.text[head.body..];
//!         let mut steps = Steps::new();
//!         let mut relex = Relexer::begin(text, &self.body, change, TokenStart::default()).unwrap();
//!         let mut lexed = Vec::new();
//!         while let Some(token) = relex.next(&mut steps) {
//!             lexed.push(token);
//!         }
//!         let counts = relex.counts();
//!         let back = self.body.len() - counts.kept_back;
//!         self.body.splice(counts.kept_front..back, lexed);
//!         self.head = head;
//!     }
//! }
//!
//! let mut file = File { text: String::new(), head: Head::find(""), body: Vec::new() };
//! for (start, stop, insert) in [(0, 0, "let ab;"), (0, 0, "---\n---\n"), (12, 13, ""), (0, 0, "#!a\n")] {
//!     file.edit(start, stop, insert);
//!     let tokens = tokenize_document(&file.text, Edition::E2024);
//!     assert!(tokens.skip(file.head.count()).eq(file.body.iter().copied()));
//! }
//! assert_eq!(file.text, "#!a\n---\n---\nlet b;");
//! ```

#[doc(alias("incremental", "relexing", "reparse"))]
#[doc(inline)]
pub use crate::generated::Relexer;
#[doc(inline)]
pub use crate::generated::{BodyChange, Change, Head, RelexState, TextLen};
