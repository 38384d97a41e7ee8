//! The proved reader of Quanta contracts.
//!
//! Five calls read a source into tokens and a tree: a program, a contract item, a statement, an
//! expression or a type. The answer is [`Answer::Accepted`] with the numbers of tokens and records, or
//! one [`Refusal`] with its place. What each answer is, and every word of the two buffers, is determined
//! by document 01 of the repository; the code behind the calls is proved to give it.
//!
//! Each call is told by the rules of which [`Edition`] it reads.
//!
//! The feature `terminal` links the signing terminal's archive in place of the desk's: the same calls and the same
//! answers, with less stack. Only one of the two can be linked into a program.
//!
//! With buffers of its own:
//!
//! ```
//! use quanta::{Call, Edition, Node, Reading};
//!
//! let source = b"contract C { asset Coin; }";
//! let reading = Reading::new(Edition::One, Call::Program, source, &[]).unwrap();
//! let nodes: Vec<_> = reading.records().map(|record| record.node).collect();
//! assert_eq!(nodes, [Node::Name, Node::Name, Node::Asset, Node::Contract, Node::Program]);
//! ```
//!
//! With lent buffers, which a caller can use again and again:
//!
//! ```
//! use quanta::{parse_stmt, token_words, tree_words, Answer, Edition};
//!
//! let source = b"a + b = 1;";
//! let mut tokens = vec![0; token_words(source.len())];
//! let mut tree = vec![0; tree_words(source.len())];
//! let words = quanta::word_table(["msg"]).unwrap();
//! match parse_stmt(Edition::One, source, &words, &mut tokens, &mut tree) {
//!     Answer::Accepted { tokens, records } => println!("{tokens} tokens, {records} records"),
//!     Answer::Refused(refusal) => assert_eq!(
//!         refusal.in_source(source).to_string(),
//!         "21: assigned to what is no name and no field at 0..5, line 1 column 1"
//!     ),
//! }
//! ```

mod edition;
mod kinds;
pub mod raw;
mod reading;
mod records;
mod refusal;

pub use edition::{Edition, UnknownEdition};
pub use kinds::{Node, Reason, TokenKind};
pub use reading::Reading;
pub use records::{records, tokens, Record, Span, Token};
pub use refusal::{place, Place, Refusal};

/// The longest source, in bytes.
pub const MAX_SOURCE: usize = 1_048_576;
/// The longest word table, in bytes.
pub const MAX_TABLE: usize = 65_536;
/// Words of one token record.
pub const TOKEN_WORDS: usize = 3;
/// Words of one tree record.
pub const TREE_WORDS: usize = 6;

/// What is read.
#[derive(Clone, Copy, Debug, PartialEq, Eq, Hash)]
pub enum Call {
    Program,
    Item,
    Stmt,
    Expr,
    Type,
}

/// The answer of a call.
#[derive(Clone, Copy, Debug, PartialEq, Eq, Hash)]
pub enum Answer {
    /// So many records stand at the front of each buffer, zeros behind them.
    Accepted { tokens: u32, records: u32 },
    /// The tree buffer is all zero, and so is the token buffer unless the tokens could be read (12 to 23).
    Refused(Refusal),
}

impl From<raw::Outcome> for Answer {
    fn from(outcome: raw::Outcome) -> Answer {
        let raw::Outcome {
            number,
            start,
            end,
            wanted,
            found,
            need,
            tokens,
            records,
        } = outcome;
        if number == 0 {
            return Answer::Accepted { tokens, records };
        }
        Answer::Refused(Refusal {
            reason: Reason::from_number(number)
                .expect("a refusal has one of the documents' numbers"),
            span: Span { start, end },
            wanted: TokenKind::from_number(wanted),
            found: TokenKind::from_number(found),
            need,
        })
    }
}

/// Words of a token buffer that is long enough for every source of this length: one record for each byte
/// and one more. A longer source than [`MAX_SOURCE`] is refused whatever is lent.
///
/// ```
/// assert_eq!(quanta::token_words(0), 3);
/// assert_eq!(quanta::token_words(5), 18);
/// ```
pub fn token_words(source_len: usize) -> usize {
    TOKEN_WORDS * (source_len.min(MAX_SOURCE) + 1)
}

/// Words of a tree buffer that is long enough for every source of this length: records never outnumber
/// tokens.
///
/// ```
/// assert_eq!(quanta::tree_words(5), 36);
/// ```
pub fn tree_words(source_len: usize) -> usize {
    TREE_WORDS * (source_len.min(MAX_SOURCE) + 1)
}

/// A word table of these words; none where one is no word (a letter or `_`, then letters, digits and `_`,
/// 255 bytes at most) or the table would be longer than [`MAX_TABLE`].
///
/// ```
/// assert_eq!(quanta::word_table(["of", "x1"]).unwrap(), b"FW\x02ofFW\x02x1");
/// assert_eq!(quanta::word_table(["1x"]), None);
/// ```
pub fn word_table<'a>(words: impl IntoIterator<Item = &'a str>) -> Option<Vec<u8>> {
    let mut table = Vec::new();
    for word in words {
        let starts = |byte: &u8| byte.is_ascii_alphabetic() || *byte == b'_';
        let goes_on = |byte: &u8| byte.is_ascii_alphanumeric() || *byte == b'_';
        if !word.as_bytes().first().is_some_and(starts) || !word.as_bytes().iter().all(goes_on) {
            return None;
        }
        table.extend_from_slice(b"FW");
        table.push(u8::try_from(word.len()).ok()?);
        table.extend_from_slice(word.as_bytes());
    }
    (table.len() <= MAX_TABLE).then_some(table)
}

/// Reads a source by any of the five calls: by the rules of an edition, under a word table and into lent
/// buffers. Room is a buffer's length divided by [`TOKEN_WORDS`] or [`TREE_WORDS`], rounded down; what the
/// buffers held does not matter.
pub fn call(
    edition: Edition,
    call: Call,
    source: &[u8],
    words: &[u8],
    tokens: &mut [u32],
    tree: &mut [u32],
) -> Answer {
    raw::read(edition.number(), call, source, words, tokens, tree).into()
}

/// Reads a program: imports, then contracts.
///
/// ```
/// use quanta::{parse, Answer, Edition};
/// let (mut tokens, mut tree) = ([7; 3], [7; 12]);
/// let answer = parse(Edition::One, b"", b"", &mut tokens, &mut tree);
/// assert_eq!(answer, Answer::Accepted { tokens: 1, records: 1 });
/// assert_eq!(tokens, [62, 0, 0]);
/// assert_eq!(tree, [1, 0, 0, 0, 0, 0, 0, 0, 0, 0, 0, 0]);
/// ```
pub fn parse(
    edition: Edition,
    source: &[u8],
    words: &[u8],
    tokens: &mut [u32],
    tree: &mut [u32],
) -> Answer {
    call(edition, Call::Program, source, words, tokens, tree)
}

/// Reads one item of a contract.
pub fn parse_item(
    edition: Edition,
    source: &[u8],
    words: &[u8],
    tokens: &mut [u32],
    tree: &mut [u32],
) -> Answer {
    call(edition, Call::Item, source, words, tokens, tree)
}

/// Reads one statement.
pub fn parse_stmt(
    edition: Edition,
    source: &[u8],
    words: &[u8],
    tokens: &mut [u32],
    tree: &mut [u32],
) -> Answer {
    call(edition, Call::Stmt, source, words, tokens, tree)
}

/// Reads one expression.
pub fn parse_expr(
    edition: Edition,
    source: &[u8],
    words: &[u8],
    tokens: &mut [u32],
    tree: &mut [u32],
) -> Answer {
    call(edition, Call::Expr, source, words, tokens, tree)
}

/// Reads one type.
pub fn parse_type(
    edition: Edition,
    source: &[u8],
    words: &[u8],
    tokens: &mut [u32],
    tree: &mut [u32],
) -> Answer {
    call(edition, Call::Type, source, words, tokens, tree)
}
