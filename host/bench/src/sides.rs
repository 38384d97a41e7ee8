//! The two readers that are measured, how far they read, and the room that is lent.

use crate::texts::Text;
use oracle::{Call, TOKEN_WORDS, TREE_WORDS};
use quanta::{raw, Edition};
use quanta_ast::{Expr, Item, Program, Stmt, Type};
use quanta_lexer::{LexError, Token};
use quanta_parser::ParseError;

/// How far a text is read.
#[derive(Clone, Copy, PartialEq, Eq)]
pub enum Part {
    /// As far as the tokens: the original's `tokenize`, and the proved lexer.
    Tokens,
    /// By a call: the original's `parse` and its like, and the five proved calls.
    Whole,
}

/// The original, which makes its own lists and trees, or the proved reader.
#[derive(Clone, Copy, PartialEq, Eq)]
pub enum Side {
    Original,
    Proved(Room),
}

/// The records that are lent.
#[derive(Clone, Copy, PartialEq, Eq)]
pub enum Room {
    /// One for each byte and one more.
    Full,
    /// As many as there are tokens, and as many as there are tree records.
    Tight,
    None,
}

impl Side {
    pub const NAMES: [(&'static str, Side); 4] = [
        ("original", Side::Original),
        ("proved-full", Side::Proved(Room::Full)),
        ("proved-tight", Side::Proved(Room::Tight)),
        ("proved-none", Side::Proved(Room::None)),
    ];

    pub fn name(self) -> &'static str {
        let named = Side::NAMES.iter().find(|(_, side)| *side == self);
        named.expect("every side has a name").0
    }

    pub fn from_name(name: &str) -> Option<Side> {
        let found = Side::NAMES.iter().find(|(known, _)| *known == name);
        found.map(|(_, side)| *side)
    }
}

/// What a side gives back; it is dropped only after the measuring.
pub enum Given {
    OriginalTokens(Result<Vec<Token>, LexError>),
    OriginalTree(Tree),
    ProvedTokens(proved::Lexed),
    ProvedTree(raw::Outcome),
}

/// What the original's calls give.
pub enum Tree {
    Program(Result<Program, ParseError>),
    Item(Result<Item, ParseError>),
    Stmt(Result<Stmt, ParseError>),
    Expr(Result<Expr, ParseError>),
    Type(Result<Type, ParseError>),
}

impl Given {
    /// What both sides must agree on: the number of tokens, 0 for a refusal; of a tree, whether there is one.
    pub fn verdict(&self) -> usize {
        match self {
            Given::OriginalTokens(tokens) => tokens.as_ref().map_or(0, Vec::len),
            Given::ProvedTokens(lexed) => lexed.tokens as usize,
            Given::OriginalTree(tree) => usize::from(tree.is_accepted()),
            Given::ProvedTree(outcome) => usize::from(outcome.number == 0),
        }
    }
}

impl Tree {
    fn read(call: Call, text: &str) -> Tree {
        match call {
            Call::Program => Tree::Program(quanta_parser::parse(text)),
            Call::Item => Tree::Item(quanta_parser::parse_item(text)),
            Call::Stmt => Tree::Stmt(quanta_parser::parse_stmt(text)),
            Call::Expr => Tree::Expr(quanta_parser::parse_expr(text)),
            Call::Type => Tree::Type(quanta_parser::parse_type(text)),
        }
    }

    fn is_accepted(&self) -> bool {
        match self {
            Tree::Program(tree) => tree.is_ok(),
            Tree::Item(tree) => tree.is_ok(),
            Tree::Stmt(tree) => tree.is_ok(),
            Tree::Expr(tree) => tree.is_ok(),
            Tree::Type(tree) => tree.is_ok(),
        }
    }
}

// What buffers are full of before a call, so that their pages are there.
const RUBBISH: u32 = 0xA5A5_5A5A;

/// A side with its inputs, ready to be called.
pub struct Ready<'a> {
    part: Part,
    side: Side,
    edition: Edition,
    call: Call,
    source: &'a [u8],
    text: &'a str,
    words: &'a [u8],
    tokens: Vec<u32>,
    tree: Vec<u32>,
}

impl<'a> Ready<'a> {
    pub fn new(part: Part, side: Side, text: &'a Text) -> Ready<'a> {
        let most = text.source.len() + 1;
        let (tokens, records) = match side {
            Side::Original | Side::Proved(Room::None) => (0, 0),
            Side::Proved(Room::Tight) => (tokens_of(text), records_of(part, text)),
            Side::Proved(Room::Full) => (most, most),
        };
        let records = if part == Part::Whole { records } else { 0 };
        Ready {
            part,
            side,
            call: text.call,
            source: &text.source,
            text: match &text.twin {
                Some(twin) => twin,
                None => std::str::from_utf8(&text.source).unwrap_or(""),
            },
            edition: text.edition,
            words: &text.words,
            tokens: vec![RUBBISH; TOKEN_WORDS * tokens],
            tree: vec![RUBBISH; TREE_WORDS * records],
        }
    }

    /// Makes the buffers as they were before the first call.
    pub fn touch(&mut self) {
        self.tokens.fill(RUBBISH);
        self.tree.fill(RUBBISH);
    }
}

/// The call that is measured; callgrind counts from its start to its end.
#[no_mangle]
#[inline(never)]
pub fn bench_measured(ready: &mut Ready) -> Given {
    let (source, words) = (ready.source, ready.words);
    let (tokens, tree) = (&mut ready.tokens[..], &mut ready.tree[..]);
    match (ready.side, ready.part) {
        (Side::Original, Part::Tokens) => Given::OriginalTokens(quanta_lexer::tokenize(ready.text)),
        (Side::Original, Part::Whole) => Given::OriginalTree(Tree::read(ready.call, ready.text)),
        (Side::Proved(_), Part::Tokens) => {
            Given::ProvedTokens(proved::tokenize(source, words, tokens))
        }
        (Side::Proved(_), Part::Whole) => {
            let call = proved::call(ready.call);
            let edition = ready.edition.number();
            Given::ProvedTree(raw::read(edition, call, source, words, tokens, tree))
        }
    }
}

/// The number of a text's tokens; of one that is refused at its last byte, those before.
pub fn tokens_of(text: &Text) -> usize {
    let need = |source: &[u8]| proved::tokenize(source, &text.words, &mut []).need as usize;
    match need(&text.source) {
        0 => need(&text.source[..text.source.len() - 1]),
        need => need,
    }
}

/// The number of a text's tree records, where it is read by a call; of one that is refused at its last byte, those before.
pub fn records_of(part: Part, text: &Text) -> usize {
    if part == Part::Tokens {
        return 0;
    }
    let mut tokens = vec![0; TOKEN_WORDS * (text.source.len() + 1)];
    let mut need = |source: &[u8]| {
        let call = proved::call(text.call);
        let edition = text.edition.number();
        raw::read(edition, call, source, &text.words, &mut tokens, &mut []).need as usize
    };
    match need(&text.source) {
        0 => need(&text.source[..text.source.len() - 1]),
        need => need,
    }
}
