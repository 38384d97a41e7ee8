//! Edition 2 of the reading rules, by request R-6 of document 02, from the original's answers.
//!
//! Closers: where the original wants the `>` that closes a type list and finds `>>`, the text is changed there to two
//! `>` with blanks behind them, and the original reads it again. Its last answer is taken back to the unchanged text.
//! Days: the original's Dates are looked up in a calendar.

use crate::days::Date;
use crate::lex;
use crate::refusal::{Refusal, BARRED_WORD, NO_DAY};
use crate::{tree, Call};
use quanta_lexer::{tokenize, Token, TokenKind};
use std::collections::HashSet;

/// The tokens, or the first of refusals 4 to 10 and 28.
pub fn tokens(source: &str, copy: &str, lent: &HashSet<&[u8]>) -> Result<Vec<Token>, Refusal> {
    match lex::tokens(source, copy, lent) {
        Ok(tokens) => match first_no_day(&tokens) {
            Some(refusal) => Err(refusal),
            None => Ok(tokens),
        },
        // 4 and 5 come from a pass over the whole source, before any token.
        Err(refusal) if refusal.number < BARRED_WORD => Err(refusal),
        Err(refusal) => {
            // The tokens before the failing one are those of the text before it.
            let before = tokenize(&copy[..refusal.start as usize]);
            let before = before.expect("the text before a failure has none");
            Err(first_no_day(&before).unwrap_or(refusal))
        }
    }
}

// Refusal 28 at the first Date that is no day.
fn first_no_day(tokens: &[Token]) -> Option<Refusal> {
    let is_bad = |token: &&Token| match &token.kind {
        TokenKind::Date(text) => !Date::of_text(text).is_day(),
        _ => false,
    };
    let found = tokens.iter().find(is_bad)?;
    Some(Refusal::at(NO_DAY, found.span.start, found.span.end))
}

/// The tree records of a text with these tokens, or one of refusals 12 to 22.
pub fn records(call: Call, text: &str, tokens: &[Token]) -> Result<Vec<[u32; 6]>, Refusal> {
    let mut changed = Changed::new(text);
    loop {
        let changed_tokens = tokenize(&changed.text).expect("blanks between tokens change none");
        match tree::records(call, &changed.text, &changed_tokens) {
            Err(refusal) if is_two_closers(&refusal) => changed.part(refusal.start as usize),
            Err(refusal) => return Err(changed.refusal_back(refusal)),
            Ok(mut records) => {
                for [_, _, own, start, end, _] in &mut records {
                    let own_start = changed_tokens[*own as usize].span.start;
                    *own = token_with(tokens, changed.back(own_start));
                    *start = changed.back(*start as usize) as u32;
                    *end = changed.back(*end as usize) as u32;
                }
                return Ok(records);
            }
        }
    }
}

// Whether a `>>` stands where a type list must close.
fn is_two_closers(refusal: &Refusal) -> bool {
    const GT: u32 = 53;
    const SHR: u32 = 61;
    (refusal.number, refusal.wanted, refusal.found) == (12, GT, SHR)
}

// The number of the token at or around an offset at which one starts in the changed text.
fn token_with(tokens: &[Token], offset: usize) -> u32 {
    tokens.partition_point(|token| token.span.start <= offset) as u32 - 1
}

// A text with blanks put into it.
struct Changed {
    text: String,
    // The offsets of these blanks, rising.
    blanks: Vec<usize>,
}

impl Changed {
    fn new(text: &str) -> Changed {
        Changed {
            text: text.to_string(),
            blanks: Vec::new(),
        }
    }

    // Makes the `>>` at an offset two tokens of one byte. It lies behind all those that were parted before. Without the
    // second blank the `>` could join what follows.
    fn part(&mut self, offset: usize) {
        self.text.replace_range(offset..offset + 2, "> > ");
        self.blanks.extend([offset + 1, offset + 3]);
    }

    // The offset in the text as it was.
    fn back(&self, offset: usize) -> usize {
        offset - self.blanks.partition_point(|blank| *blank < offset)
    }

    fn refusal_back(&self, refusal: Refusal) -> Refusal {
        Refusal {
            start: self.back(refusal.start as usize) as u32,
            end: self.back(refusal.end as usize) as u32,
            ..refusal
        }
    }
}
