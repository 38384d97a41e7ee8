//! Refusals and how the original's messages map to their numbers.

use crate::kinds;
use quanta_lexer::{LexError, Span, Token};
use quanta_parser::ParseError;

/// A refusal with document 01's six numbers; fields that it does not name are 0.
#[derive(Clone, Copy, Debug, Default, PartialEq, Eq)]
pub struct Refusal {
    pub number: u32,
    pub start: u32,
    pub end: u32,
    pub wanted: u32,
    pub found: u32,
    pub need: u32,
}

pub const BAD_TABLE: u32 = 1;
pub const SOURCE_TOO_LONG: u32 = 2;
pub const NOT_UTF8: u32 = 3;
pub const BARRED_WORD: u32 = 6;
pub const NO_TOKEN_ROOM: u32 = 11;
pub const NO_TREE_ROOM: u32 = 23;
pub const NO_DAY: u32 = 28;
pub const UNKNOWN_EDITION: u32 = 29;

/// How each message of the original starts, with the refusal's number.
const MESSAGES: [(&str, u32); 18] = [
    ("a carriage return must be followed by a line feed", 4),
    (
        "the source holds an invisible or direction changing character",
        5,
    ),
    ("forbidden token `", BARRED_WORD),
    ("a date is written @YYYY-MM-DD", 7),
    ("the number `", 8),
    ("unterminated string literal", 9),
    ("unexpected character `", 10),
    ("expected `", 12),
    ("expected identifier, found ", 13),
    ("expected integer, found ", 14),
    ("expected import name, found ", 15),
    ("expected string literal, found ", 16),
    ("expected an expression, found ", 17),
    ("expected a type, found ", 18),
    ("expected a contract item, found ", 19),
    (
        "expression or type nests deeper than the 64 level limit",
        20,
    ),
    ("invalid assignment target", 21),
    ("unexpected trailing ", 22),
];

impl Refusal {
    pub fn at(number: u32, start: usize, end: usize) -> Refusal {
        Refusal {
            number,
            start: start as u32,
            end: end as u32,
            ..Refusal::default()
        }
    }

    pub fn need(number: u32, need: usize) -> Refusal {
        Refusal {
            number,
            need: need as u32,
            ..Refusal::default()
        }
    }

    pub fn from_lex(error: &LexError) -> Refusal {
        from_message(&error.message, error.span)
    }

    pub fn from_parse(error: &ParseError, tokens: &[Token]) -> Refusal {
        let mut refusal = from_message(&error.message, error.span);
        if refusal.number == 12 {
            refusal.wanted = wanted(&error.message);
        }
        if matches!(refusal.number, 12..=19 | 22) {
            let found = tokens.iter().find(|token| token.span == error.span);
            let found = found.expect("the error marks a token");
            refusal.found = kinds::token_number(&found.kind);
        }
        refusal
    }
}

fn from_message(message: &str, span: Span) -> Refusal {
    let known = MESSAGES
        .iter()
        .find(|(prefix, _)| message.starts_with(prefix));
    let (_, number) = known.unwrap_or_else(|| panic!("no refusal number for: {message}"));
    Refusal::at(*number, span.start, span.end)
}

// The kind that stands between "expected " and ", found " in a message.
fn wanted(message: &str) -> u32 {
    let rest = message
        .strip_prefix("expected ")
        .expect("the prefix was tested");
    let (description, _) = rest.split_once(", found ").expect("what was found follows");
    kinds::described_number(description).expect("only a fixed token is expected by its symbol")
}
