//! Stands in for the `lib.rs` that is not in the text given; the modules are the original's own files
//! and stay as they are, in their layout too.

#[rustfmt::skip]
#[path = "../../../../docs/src/quanta-parser/src/decl.rs"]
mod decl;
#[rustfmt::skip]
#[path = "../../../../docs/src/quanta-parser/src/error.rs"]
mod error;
#[rustfmt::skip]
#[path = "../../../../docs/src/quanta-parser/src/expr.rs"]
mod expr;
#[rustfmt::skip]
#[path = "../../../../docs/src/quanta-parser/src/parser.rs"]
mod parser;
#[rustfmt::skip]
#[path = "../../../../docs/src/quanta-parser/src/program.rs"]
mod program;
#[rustfmt::skip]
#[path = "../../../../docs/src/quanta-parser/src/stmt.rs"]
mod stmt;
#[rustfmt::skip]
#[path = "../../../../docs/src/quanta-parser/src/ty.rs"]
mod ty;

pub use decl::parse_item;
pub use error::ParseError;
pub use expr::parse_expr;
pub use program::parse;
pub use stmt::parse_stmt;
pub use ty::parse_type;
