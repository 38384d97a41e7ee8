//! Word tables, well formed and not.

use crate::rng::Rng;
use oracle::table::{self, MARK, MAX_TABLE};

const WORDS: [&str; 17] = [
    "of", "days", "seconds", "contract", "entry", "caller", "Quorum", "in_asset", "a", "msg", "_",
    "function", "owner", "xxx", "___", "_msg", "wei",
];

/// A table for a source with these tokens: usually well formed, often holding some of them.
pub fn table(tokens: &[&str], rng: &mut Rng) -> Vec<u8> {
    match rng.below(10) {
        0 => Vec::new(),
        1 => table::original(),
        2 => long(rng),
        3..=6 => table::encode(words(tokens, rng)),
        _ => {
            let good = table::encode(words(tokens, rng));
            bad(good, rng)
        }
    }
}

fn words<'a>(tokens: &[&'a str], rng: &mut Rng) -> Vec<&'a str> {
    let mut words = Vec::new();
    for _ in 0..rng.below(5) {
        words.push(*rng.pick(&WORDS));
    }
    let is_word = |token: &str| token.starts_with(|c: char| c.is_ascii_alphabetic() || c == '_');
    if !tokens.is_empty() && rng.once_in(2) {
        words.push(*rng.pick(tokens));
    }
    words.retain(|word| is_word(word));
    words
}

// A well-formed table, then one bad record, then perhaps more.
fn bad(mut table: Vec<u8>, rng: &mut Rng) -> Vec<u8> {
    let record: &[u8] = match rng.below(8) {
        0 => &[MARK[0]],
        1 => &MARK,
        2 => &[MARK[0], MARK[1], 0],
        3 => &[MARK[0], MARK[1], 3, b'a', b'b'],
        4 => &[MARK[0], MARK[1], 2, b'1', b'a'],
        5 => &[MARK[0], MARK[1], 2, b'a', b'-'],
        6 => &[MARK[1], MARK[0], 1, b'a'],
        _ => &[MARK[0], MARK[1], 2, 0xC3, 0xA4],
    };
    table.extend_from_slice(record);
    if rng.once_in(2) {
        table.extend_from_slice(&table::encode(["later"]));
    }
    table
}

/// A table of exactly the greatest length.
pub fn longest() -> Vec<u8> {
    let word = "w".repeat(255);
    let mut out = table::encode([word.as_str()].repeat(MAX_TABLE / 258));
    let rest = MAX_TABLE - out.len() - 3;
    out.extend_from_slice(&table::encode([&word[..rest]]));
    out
}

// A table of exactly the greatest length or one byte more, sometimes with a bad first record.
fn long(rng: &mut Rng) -> Vec<u8> {
    let mut out = longest();
    if rng.once_in(2) {
        out.push(MARK[0]);
    }
    if rng.once_in(4) {
        out[0] = 0;
    }
    out
}
