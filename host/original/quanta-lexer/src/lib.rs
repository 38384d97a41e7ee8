//! Stands in for the `lib.rs` that is not in the text given; the modules are the original's own files
//! and stay as they are, in their layout too.

#[rustfmt::skip]
#[path = "../../../../docs/src/quanta-lexer/src/lexer.rs"]
mod lexer;
#[rustfmt::skip]
#[path = "../../../../docs/src/quanta-lexer/src/token.rs"]
mod token;

pub use lexer::{tokenize, LexError};
pub use token::{keyword_kind, Span, Token, TokenKind, FORBIDDEN};
