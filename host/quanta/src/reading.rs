//! An accepted source with its tokens and its tree.

use crate::records::{record, records, token, tokens};
use crate::{
    call, token_words, tree_words, Answer, Call, Edition, Record, Refusal, Token, TOKEN_WORDS,
    TREE_WORDS,
};

/// An accepted source with its tokens and its tree, in buffers of its own.
///
/// Who reads many sources lends buffers to [`parse`](crate::parse) and its like instead.
///
/// ```
/// use quanta::{Call, Edition, Node, Reading};
/// let source = b"(a) = f(1);";
/// let reading = Reading::new(Edition::One, Call::Stmt, source, &[]).unwrap();
/// let (no, assign) = (reading.root(), reading.record(reading.root()).unwrap());
/// assert_eq!(assign.node, Node::Assign);
/// let parts: Vec<_> = reading.children(no).into_iter().map(|no| reading.record(no).unwrap()).collect();
/// assert_eq!(parts[0].node, Node::Name);
/// assert_eq!(reading.text(reading.own(parts[0]).unwrap()), b"a");
/// assert_eq!(parts[1].node, Node::Call);
/// ```
#[derive(Clone, Debug, PartialEq, Eq)]
pub struct Reading<'a> {
    source: &'a [u8],
    tokens: Vec<u32>,
    tree: Vec<u32>,
}

impl<'a> Reading<'a> {
    /// Reads a source by the rules of an edition and under a word table, with room enough.
    pub fn new(
        edition: Edition,
        kind: Call,
        source: &'a [u8],
        words: &[u8],
    ) -> Result<Reading<'a>, Refusal> {
        let mut tokens_buffer = vec![0; token_words(source.len())];
        let mut tree_buffer = vec![0; tree_words(source.len())];
        match call(
            edition,
            kind,
            source,
            words,
            &mut tokens_buffer,
            &mut tree_buffer,
        ) {
            Answer::Refused(refusal) => Err(refusal),
            Answer::Accepted { tokens, records } => {
                tokens_buffer.truncate(TOKEN_WORDS * tokens as usize);
                tokens_buffer.shrink_to_fit();
                tree_buffer.truncate(TREE_WORDS * records as usize);
                tree_buffer.shrink_to_fit();
                Ok(Reading {
                    source,
                    tokens: tokens_buffer,
                    tree: tree_buffer,
                })
            }
        }
    }

    pub fn source(&self) -> &'a [u8] {
        self.source
    }

    /// The tokens in source order; the last is the end of input.
    pub fn tokens(&self) -> impl Iterator<Item = Token> + '_ {
        tokens(&self.tokens)
    }

    /// The tree's records, children before their parent.
    pub fn records(&self) -> impl Iterator<Item = Record> + '_ {
        records(&self.tree)
    }

    /// The token of this number, from 0.
    pub fn token(&self, no: usize) -> Option<Token> {
        let at = no.checked_mul(TOKEN_WORDS)?;
        token(self.tokens.get(at..)?)
    }

    /// The record of this number, from 0.
    pub fn record(&self, no: usize) -> Option<Record> {
        let at = no.checked_mul(TREE_WORDS)?;
        record(self.tree.get(at..)?)
    }

    /// The record's own token.
    pub fn own(&self, record: Record) -> Option<Token> {
        self.token(record.own as usize)
    }

    /// A token's text, see [`Token::text`].
    pub fn text(&self, token: Token) -> &'a [u8] {
        token.text(self.source)
    }

    /// The number of the record that stands for the whole text: the last.
    pub fn root(&self) -> usize {
        self.tree.len() / TREE_WORDS - 1
    }

    /// The numbers of a record's direct children, in source order; empty for a number that no record has.
    pub fn children(&self, no: usize) -> Vec<usize> {
        let count = self.record(no).map_or(0, |record| record.children);
        let mut numbers = Vec::new();
        let mut end = no;
        for _ in 0..count {
            numbers.push(end - 1);
            end = self.first_below(end - 1);
        }
        numbers.reverse();
        numbers
    }

    // The number of the first record of the part of the tree that ends in this one.
    fn first_below(&self, no: usize) -> usize {
        let mut first = no;
        let mut missing = self.tree[TREE_WORDS * no + 5];
        while missing > 0 {
            first -= 1;
            missing += self.tree[TREE_WORDS * first + 5];
            missing -= 1;
        }
        first
    }
}
