//! The numbers of token kinds and tree kinds.

use quanta_lexer::TokenKind;

/// Every token kind in the order of `TokenKind`; a kind's number is 1 plus its place here.
#[rustfmt::skip]
static TOKEN_KINDS: [TokenKind; 62] = {
    use TokenKind::*;
    [
        Ident(String::new()), Int(String::new()), Date(String::new()), Str(String::new()),
        Contract, Entry, Guard, Genesis, Caller, InAsset, Native, Now, State, Invariant, Event, Emit,
        Asset, Let, Signed, By, Sealed, Meta, Quorum, After, From, Mints, Burns, Conserves, Writes,
        Reads, Limits, Denies, Import, Checked, Wrapping,
        LBrace, RBrace, LParen, RParen, Comma, Semi, Colon, Dot, Eq, PlusEq, MinusEq, Plus, Minus,
        Star, Slash, Percent, Lt, Gt, Le, Ge, EqEq, Ne, Bang, AndAnd, OrOr, Shr,
        Eof,
    ]
};

/// The number of a token's kind.
pub fn token_number(kind: &TokenKind) -> u32 {
    let same = |other: &TokenKind| std::mem::discriminant(other) == std::mem::discriminant(kind);
    number_where(same).expect("every kind is in the table")
}

/// The number of the kind that `TokenKind::describe` describes so.
pub fn described_number(description: &str) -> Option<u32> {
    number_where(|kind| kind.describe() == description)
}

fn number_where(test: impl Fn(&TokenKind) -> bool) -> Option<u32> {
    let place = TOKEN_KINDS.iter().position(test)?;
    Some(place as u32 + 1)
}

/// The kinds of tree records.
#[derive(Clone, Copy, Debug, PartialEq, Eq)]
pub enum Node {
    Program = 1,
    Import,
    Contract,
    Asset,
    State,
    Genesis,
    Invariant,
    Event,
    Entry,
    Field,
    Param,
    Writes,
    Reads,
    Conserves,
    Mints,
    Burns,
    Limits,
    Denies,
    After,
    Type,
    MofN,
    Guard,
    Let,
    Emit,
    Assign,
    ExprStmt,
    Name,
    Int,
    Date,
    Str,
    Caller,
    InAsset,
    Native,
    Now,
    Checked,
    Wrapping,
    Unary,
    Binary,
    Access,
    Call,
}
