//! Refusals and places.

use crate::{raw, Reason, Span, TokenKind};
use std::fmt;

/// Why and where a source is refused.
///
/// Displayed it is the number, the words and the span; [`Refusal::in_source`] adds line and column.
///
/// ```
/// use quanta::{Call, Edition, Reading, Reason, TokenKind};
/// let source = b"Map<A, Map<B, C>>";
/// let refusal = Reading::new(Edition::One, Call::Type, source, &[]).unwrap_err();
/// assert_eq!(refusal.reason, Reason::ExpectedToken);
/// assert_eq!(refusal.wanted, Some(TokenKind::Gt));
/// assert_eq!(refusal.to_string(), "12: expected `>`, found `>>` at 15..17");
/// assert_eq!(
///     refusal.in_source(source).to_string(),
///     "12: expected `>`, found `>>` at 15..17, line 1 column 16"
/// );
/// ```
#[derive(Clone, Copy, Debug, PartialEq, Eq, Hash)]
pub struct Refusal {
    pub reason: Reason,
    /// What is marked, in bytes of the source; for [`Reason::BadTable`] in bytes of the word table. Nothing
    /// is marked where room is short or the edition unknown.
    pub span: Span,
    /// The token that may stand there, for [`Reason::ExpectedToken`].
    pub wanted: Option<TokenKind>,
    /// The token that is marked, where a token or something else was expected.
    pub found: Option<TokenKind>,
    /// The records that are needed, for [`Reason::TokenRoom`] and [`Reason::TreeRoom`].
    pub need: u32,
}

impl Refusal {
    /// The refusal's number in documents 01 and 02.
    pub fn number(&self) -> u32 {
        self.reason.number()
    }

    /// Where the marked bytes start; none where none of the source are marked.
    pub fn place(&self, source: &[u8]) -> Option<Place> {
        match self.reason {
            Reason::BadTable
            | Reason::SourceTooLong
            | Reason::TokenRoom
            | Reason::TreeRoom
            | Reason::UnknownEdition => None,
            _ => place(source, self.span.start as usize),
        }
    }

    /// The refusal with line and column, to be displayed.
    pub fn in_source(self, source: &[u8]) -> impl fmt::Display + '_ {
        InSource {
            refusal: self,
            source,
        }
    }
}

impl fmt::Display for Refusal {
    fn fmt(&self, f: &mut fmt::Formatter<'_>) -> fmt::Result {
        write!(f, "{}: ", self.number())?;
        match self.wanted {
            Some(wanted) => write!(f, "expected {wanted}")?,
            None => f.write_str(self.reason.name())?,
        }
        if let Some(found) = self.found {
            write!(f, ", found {found}")?;
        }
        match self.reason {
            Reason::TokenRoom | Reason::TreeRoom => write!(f, ", {} needed", self.need),
            Reason::BadTable => write!(f, " at {} of the table", self.span.start),
            Reason::SourceTooLong | Reason::UnknownEdition => Ok(()),
            _ => write!(f, " at {}", self.span),
        }
    }
}

impl std::error::Error for Refusal {}

struct InSource<'a> {
    refusal: Refusal,
    source: &'a [u8],
}

impl fmt::Display for InSource<'_> {
    fn fmt(&self, f: &mut fmt::Formatter<'_>) -> fmt::Result {
        self.refusal.fmt(f)?;
        match self.refusal.place(self.source) {
            Some(place) => write!(f, ", {place}"),
            None => Ok(()),
        }
    }
}

/// A place in a source; line and column are counted from 1, a column in bytes.
#[derive(Clone, Copy, Debug, PartialEq, Eq, Hash)]
pub struct Place {
    pub line: u64,
    pub column: u64,
}

impl fmt::Display for Place {
    fn fmt(&self, f: &mut fmt::Formatter<'_>) -> fmt::Result {
        write!(f, "line {} column {}", self.line, self.column)
    }
}

/// Line and column of an offset; none above the source's length.
///
/// ```
/// use quanta::{place, Place};
/// assert_eq!(place(b"a\nbc", 3), Some(Place { line: 2, column: 2 }));
/// assert_eq!(place(b"a\nbc", 4), Some(Place { line: 2, column: 3 }));
/// assert_eq!(place(b"a\nbc", 5), None);
/// ```
pub fn place(source: &[u8], offset: usize) -> Option<Place> {
    let raw::LineColumn { line, column } = raw::place(source, offset);
    (line > 0).then_some(Place { line, column })
}
