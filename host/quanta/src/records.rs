//! The records that stand in the lent buffers.

use crate::{Node, TokenKind, TOKEN_WORDS, TREE_WORDS};
use std::fmt;

/// A range of bytes of the source.
#[derive(Clone, Copy, Debug, Default, PartialEq, Eq, Hash)]
pub struct Span {
    pub start: u32,
    pub end: u32,
}

impl Span {
    /// The bytes of a source in this span; empty where it is not inside the source.
    pub fn of(self, source: &[u8]) -> &[u8] {
        source
            .get(self.start as usize..self.end as usize)
            .unwrap_or(&[])
    }
}

impl fmt::Display for Span {
    fn fmt(&self, f: &mut fmt::Formatter<'_>) -> fmt::Result {
        write!(f, "{}..{}", self.start, self.end)
    }
}

/// A token record.
#[derive(Clone, Copy, Debug, PartialEq, Eq, Hash)]
pub struct Token {
    pub kind: TokenKind,
    pub span: Span,
}

impl Token {
    /// The token's text: its part of the source, without the quotes of a string and without the `@` of a
    /// date; empty if the start is past the end, the end past the source, or the span too short for what is
    /// taken off.
    ///
    /// ```
    /// use quanta::{Span, Token, TokenKind};
    /// let source = b"f(\"sum\", @2026-01-31)";
    /// let text = |kind, start, end| Token { kind, span: Span { start, end } }.text(source);
    /// assert_eq!(text(TokenKind::Str, 2, 7), b"sum");
    /// assert_eq!(text(TokenKind::Date, 9, 20), b"2026-01-31");
    /// assert_eq!(text(TokenKind::Str, 2, 3), b"");
    /// assert_eq!(text(TokenKind::Ident, 20, 22), b"");
    /// ```
    pub fn text(self, source: &[u8]) -> &[u8] {
        let whole = self.span.of(source);
        let (front, back) = match self.kind {
            TokenKind::Str => (1, 1),
            TokenKind::Date => (1, 0),
            _ => (0, 0),
        };
        let end = whole.len().saturating_sub(back);
        whole.get(front..end).unwrap_or(&[])
    }
}

/// A tree record. Its children stand before it, in source order.
#[derive(Clone, Copy, Debug, PartialEq, Eq, Hash)]
pub struct Record {
    pub node: Node,
    /// What it says depends on the kind, see [`Node`]; 0 for most.
    pub flag: u32,
    /// The number of the token that is the node's own.
    pub own: u32,
    pub span: Span,
    /// The number of direct children.
    pub children: u32,
}

/// The token records at the front of a buffer, up to the first that is none.
///
/// ```
/// let mut tokens = [0; 12];
/// let mut tree = [0; 24];
/// quanta::parse_expr(quanta::Edition::One, b"a+1", &[], &mut tokens, &mut tree);
/// let kinds: Vec<_> = quanta::tokens(&tokens).map(|token| token.kind.name()).collect();
/// assert_eq!(kinds, ["identifier", "+", "integer", "end of input"]);
/// ```
pub fn tokens(words: &[u32]) -> impl Iterator<Item = Token> + '_ {
    words.chunks_exact(TOKEN_WORDS).map_while(token)
}

/// The tree records at the front of a buffer, up to the first that is none.
///
/// ```
/// let mut tokens = [0; 12];
/// let mut tree = [0; 24];
/// quanta::parse_expr(quanta::Edition::One, b"a+1", &[], &mut tokens, &mut tree);
/// let nodes: Vec<_> = quanta::records(&tree).map(|record| record.node.name()).collect();
/// assert_eq!(nodes, ["name", "int", "binary"]);
/// ```
pub fn records(words: &[u32]) -> impl Iterator<Item = Record> + '_ {
    words.chunks_exact(TREE_WORDS).map_while(record)
}

pub(crate) fn token(words: &[u32]) -> Option<Token> {
    let [kind, start, end] = *words.first_chunk()?;
    Some(Token {
        kind: TokenKind::from_number(kind)?,
        span: Span { start, end },
    })
}

pub(crate) fn record(words: &[u32]) -> Option<Record> {
    let [kind, flag, own, start, end, children] = *words.first_chunk()?;
    Some(Record {
        node: Node::from_number(kind)?,
        flag,
        own,
        span: Span { start, end },
        children,
    })
}
