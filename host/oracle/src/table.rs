//! The word table: its form, its test, and the original's own list in that form.

use crate::refusal::{Refusal, BAD_TABLE};
use std::collections::HashSet;

/// The longest table, in bytes.
pub const MAX_TABLE: usize = 65_536;
/// The two bytes that start each record.
pub const MARK: [u8; 2] = [0x46, 0x57];

/// The words of a table, or refusal 1.
pub fn words(table: &[u8]) -> Result<HashSet<&[u8]>, Refusal> {
    if table.len() > MAX_TABLE {
        return Err(Refusal::at(BAD_TABLE, MAX_TABLE, MAX_TABLE));
    }
    let mut words = HashSet::new();
    let mut at = 0;
    while at < table.len() {
        let word = first_word(&table[at..]).ok_or(Refusal::at(BAD_TABLE, at, at))?;
        words.insert(word);
        at += MARK.len() + 1 + word.len();
    }
    Ok(words)
}

// The word of the record at the front, if the record is well formed.
fn first_word(table: &[u8]) -> Option<&[u8]> {
    let rest = table.strip_prefix(&MARK)?;
    let (length, rest) = rest.split_first()?;
    let word = rest.get(..usize::from(*length))?;
    let (first, others) = word.split_first()?;
    let starts = first.is_ascii_alphabetic() || *first == b'_';
    let goes_on = others
        .iter()
        .all(|b| b.is_ascii_alphanumeric() || *b == b'_');
    (starts && goes_on).then_some(word)
}

/// A table of these words, each of 1 to 255 bytes.
pub fn encode<'a>(words: impl IntoIterator<Item = &'a str>) -> Vec<u8> {
    let mut table = Vec::new();
    for word in words {
        let length = u8::try_from(word.len()).expect("a word has at most 255 bytes");
        table.extend_from_slice(&MARK);
        table.push(length);
        table.extend_from_slice(word.as_bytes());
    }
    table
}

/// The original's own list as a table.
pub fn original() -> Vec<u8> {
    encode(quanta_lexer::FORBIDDEN.iter().copied())
}
