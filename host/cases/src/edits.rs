//! All edits of one token in a program that uses every production, and in each part of it.

use crate::damage::TOKENS;
use oracle::{Call, Case, TOKEN_WORDS, TREE_WORDS};
use std::borrow::Cow;

/// The program that uses every production.
pub const EVERY: &str = include_str!("../../../examples/every.quanta");

/// The record kinds of the parts that each call reads.
fn is_part(call: Call, node: u32) -> bool {
    match call {
        Call::Program => node == 1,
        Call::Item => (4..=9).contains(&node),
        Call::Stmt => (22..=26).contains(&node),
        Call::Expr => (27..=40).contains(&node),
        Call::Type => node == 20,
    }
}

/// An edit at a place in a list of tokens.
#[derive(Clone, Copy)]
enum Edit {
    Insert(&'static str),
    Replace(&'static str),
    Delete,
    /// Swaps the token with the next.
    Swap,
    /// Changes a word: its first letter's case, its last byte gone, another, or one more.
    Misspell(Slip),
}

#[derive(Clone, Copy)]
enum Slip {
    Case,
    Cut,
    Other,
    More(char),
}

const SLIPS: [Slip; 5] = [
    Slip::Case,
    Slip::Cut,
    Slip::Other,
    Slip::More('s'),
    Slip::More('_'),
];

/// The cases of a call: each different part of the program that the call reads, unchanged and with each edit at each place.
pub fn of(call: Call) -> impl Iterator<Item = Case> {
    let texts = parts(call).into_iter().flat_map(|part| {
        let edits = (0..=part.len()).flat_map(|place| all().map(move |edit| (place, edit)));
        let unchanged = part.join(" ");
        let edited = edits.filter_map(move |(place, edit)| edited(&part, place, edit));
        [unchanged].into_iter().chain(edited)
    });
    texts.map(move |text| Case::ample(call, text.into(), Vec::new()))
}

fn all() -> impl Iterator<Item = Edit> {
    let inserted = TOKENS.into_iter().map(Edit::Insert);
    let replaced = TOKENS.into_iter().map(Edit::Replace);
    let misspelled = SLIPS.into_iter().map(Edit::Misspell);
    let others = [Edit::Delete, Edit::Swap].into_iter();
    inserted.chain(replaced).chain(misspelled).chain(others)
}

/// The different texts of the program's parts that a call reads, as tokens.
pub fn parts(call: Call) -> Vec<Vec<&'static str>> {
    let outcome = oracle::read(&Case::ample(Call::Program, EVERY.into(), Vec::new()));
    let tokens: Vec<(u32, u32)> = outcome
        .tokens
        .chunks_exact(TOKEN_WORDS)
        .map(|token| (token[1], token[2]))
        .filter(|(start, end)| start < end)
        .collect();
    let mut parts: Vec<Vec<&str>> = Vec::new();
    for record in outcome.tree.chunks_exact(TREE_WORDS) {
        let inside = |(start, end): &&(u32, u32)| *start >= record[3] && *end <= record[4];
        let texts = tokens
            .iter()
            .filter(inside)
            .map(|(start, end)| &EVERY[*start as usize..*end as usize]);
        let texts = texts.collect();
        if is_part(call, record[0]) && !parts.contains(&texts) {
            parts.push(texts);
        }
    }
    parts
}

// The text after an edit, if there is what it needs.
fn edited(part: &[&str], place: usize, edit: Edit) -> Option<String> {
    let mut tokens: Vec<Cow<str>> = part.iter().map(|token| Cow::Borrowed(*token)).collect();
    match edit {
        Edit::Insert(wrong) => tokens.insert(place, wrong.into()),
        Edit::Replace(wrong) => *tokens.get_mut(place)? = wrong.into(),
        Edit::Misspell(slip) => {
            let word = tokens.get_mut(place)?;
            *word = misspelled(word, slip)?.into();
        }
        Edit::Delete if place < tokens.len() => drop(tokens.remove(place)),
        Edit::Swap if place + 1 < tokens.len() => tokens.swap(place, place + 1),
        Edit::Delete | Edit::Swap => return None,
    }
    Some(tokens.join(" "))
}

fn misspelled(word: &str, slip: Slip) -> Option<String> {
    let first = word.chars().next().filter(char::is_ascii_alphabetic)?;
    let (front, last) = word.split_at(word.len() - 1);
    Some(match slip {
        Slip::Case => char::from(first as u8 ^ 0x20).to_string() + &word[1..],
        Slip::Cut => front.to_string(),
        Slip::Other => front.to_string() + if last == "z" { "y" } else { "z" },
        Slip::More(letter) => format!("{word}{letter}"),
    })
}
