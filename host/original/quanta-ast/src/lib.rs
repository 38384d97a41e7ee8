//! Stands in for the `lib.rs` that is not in the text given; the module is the original's own file
//! and stays as it is, in its layout too.
//! `print.rs` is left out, as document 01 says.

#[rustfmt::skip]
#[path = "../../../../docs/src/quanta-ast/src/ast.rs"]
mod ast;

pub use ast::*;
