//! The archive's functions as they are: eight numbers for an answer, behind safe functions.

use crate::Call;

/// What a call returns by C calling convention; number 0 means accepted. Fields that an answer does not name are 0.
#[repr(C)]
#[derive(Clone, Copy, Debug, Default, PartialEq, Eq, Hash)]
pub struct Outcome {
    pub number: u32,
    pub start: u32,
    pub end: u32,
    pub wanted: u32,
    pub found: u32,
    pub need: u32,
    pub tokens: u32,
    pub records: u32,
}

/// A line and a column, both from 1; 0 and 0 for an offset above the source's length.
#[repr(C)]
#[derive(Clone, Copy, Debug, PartialEq, Eq)]
pub struct LineColumn {
    pub line: u64,
    pub column: u64,
}

// A slice is two arguments of C, its pointer and its length in elements.
macro_rules! calls {
    ($($name:ident)*) => {
        extern "C" {
            $(fn $name(
                edition: u32,
                source: *const u8,
                source_len: usize,
                words: *const u8,
                words_len: usize,
                tokens: *mut u32,
                tokens_len: usize,
                tree: *mut u32,
                tree_len: usize,
            ) -> Outcome;)*
            fn quanta_place(source: *const u8, source_len: usize, offset: usize) -> LineColumn;
        }
    };
}

calls! { quanta_parse quanta_parse_item quanta_parse_stmt quanta_parse_expr quanta_parse_type }

/// Makes one call in any edition; one that is unknown is answered by 29.
///
/// ```
/// use quanta::{raw, Call};
/// let (mut tokens, mut tree) = ([7; 6], [7; 12]);
/// let outcome = raw::read(3, Call::Expr, b"a", &[], &mut tokens, &mut tree);
/// assert_eq!(outcome, raw::Outcome { number: 29, ..raw::Outcome::default() });
/// assert_eq!((tokens, tree), ([0; 6], [0; 12]));
/// ```
pub fn read(
    edition: u32,
    call: Call,
    source: &[u8],
    words: &[u8],
    tokens: &mut [u32],
    tree: &mut [u32],
) -> Outcome {
    let function = match call {
        Call::Program => quanta_parse,
        Call::Item => quanta_parse_item,
        Call::Stmt => quanta_parse_stmt,
        Call::Expr => quanta_parse_expr,
        Call::Type => quanta_parse_type,
    };
    // SAFETY: each pointer goes with its slice's length, and an empty slice's pointer is aligned and not
    // null; only `tokens` and `tree` are written, and both are lent mutably, so that nothing overlaps.
    unsafe {
        function(
            edition,
            source.as_ptr(),
            source.len(),
            words.as_ptr(),
            words.len(),
            tokens.as_mut_ptr(),
            tokens.len(),
            tree.as_mut_ptr(),
            tree.len(),
        )
    }
}

/// Line and column of an offset.
pub fn place(source: &[u8], offset: usize) -> LineColumn {
    // SAFETY: the pointer goes with the slice's length, and the source is only read.
    unsafe { quanta_place(source.as_ptr(), source.len(), offset) }
}
