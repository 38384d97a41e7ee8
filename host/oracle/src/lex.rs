//! The original's lexer under a lent word table.

use crate::kinds;
use crate::refusal::{Refusal, BARRED_WORD};
use quanta_lexer::{tokenize, Token, FORBIDDEN};
use std::collections::HashSet;

/// A copy of the source in which the original's lexer finds no word of its own list that is not lent.
///
/// The original's list is a constant, so each such word is overwritten by as
/// many `x`: a letter, since `_` would join a number that stands before it. A
/// word is a run of word bytes without the digits and `_` of a number in front.
/// In strings, comments and behind a date this overwrites too much, which moves
/// no kind and no span; lent words are looked up in the source itself.
pub fn without_unlent_words(source: &str, lent: &HashSet<&[u8]>) -> String {
    let mut out = String::with_capacity(source.len());
    let mut rest = source;
    while !rest.is_empty() {
        let (gap, tail) = rest.split_at(rest.find(is_word_char).unwrap_or(rest.len()));
        let (run, tail) = tail.split_at(tail.find(|c| !is_word_char(c)).unwrap_or(tail.len()));
        let (number, word) = run.split_at(number_length(run));
        out.push_str(gap);
        out.push_str(number);
        if FORBIDDEN.contains(&word) && !lent.contains(word.as_bytes()) {
            out.extend(word.chars().map(|_| 'x'));
        } else {
            out.push_str(word);
        }
        rest = tail;
    }
    out
}

fn is_word_char(c: char) -> bool {
    c.is_ascii_alphanumeric() || c == '_'
}

fn number_length(run: &str) -> usize {
    if !run.starts_with(|c: char| c.is_ascii_digit()) {
        return 0;
    }
    run.find(|c: char| c.is_ascii_alphabetic())
        .unwrap_or(run.len())
}

/// The tokens, or the first of refusals 4 to 10.
pub fn tokens(source: &str, copy: &str, lent: &HashSet<&[u8]>) -> Result<Vec<Token>, Refusal> {
    let tokens = tokenize(copy).map_err(|error| {
        let refusal = Refusal::from_lex(&error);
        // 4 and 5 come from a pass over the whole source, before any token.
        if refusal.number < BARRED_WORD {
            return refusal;
        }
        // The tokens before the failing one are those of the text before it.
        let before =
            tokenize(&copy[..error.span.start]).expect("the text before a failure has none");
        first_lent(source, &before, lent).unwrap_or(refusal)
    })?;
    match first_lent(source, &tokens, lent) {
        Some(refusal) => Err(refusal),
        None => Ok(tokens),
    }
}

// Refusal 6 at the first token whose text is a lent word.
fn first_lent(source: &str, tokens: &[Token], lent: &HashSet<&[u8]>) -> Option<Refusal> {
    if lent.is_empty() {
        return None;
    }
    let text = |token: &Token| &source.as_bytes()[token.span.start..token.span.end];
    let found = tokens.iter().find(|token| lent.contains(text(token)))?;
    Some(Refusal::at(BARRED_WORD, found.span.start, found.span.end))
}

/// A token's record.
pub fn record(token: &Token) -> [u32; 3] {
    let kind = kinds::token_number(&token.kind);
    [kind, token.span.start as u32, token.span.end as u32]
}
