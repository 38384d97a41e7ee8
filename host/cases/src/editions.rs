//! Sources in which the editions may differ: made-up texts with nested types that `>>` closes, and with dates.

use crate::days::{self, YEARS};
use crate::grammar::{Maker, Shape};
use crate::layout::lay_out;
use crate::rng::Rng;
use crate::{damage, sentence, tables};
use oracle::{Call, Case};

const UNKNOWN: [u32; 6] = [0, 3, 255, 257, 1 << 31, u32::MAX];

pub fn case(rng: &mut Rng, size: usize) -> Case {
    let call = *rng.pick(&Call::ALL);
    let mut tokens = with_nested_types(sentence(call, rng, size), rng);
    if rng.once_in(6) {
        damage::token(&mut tokens, rng);
    }
    let words = match rng.below(10) {
        0 => tables::table(&tokens, rng),
        _ => Vec::new(),
    };
    let tokens = with_dates(&tokens, rng);
    let tokens: Vec<&str> = tokens.iter().map(String::as_str).collect();
    let mut source = lay_out(&tokens, rng);
    drop_blanks(&mut source, rng);
    if rng.once_in(10) {
        damage::bytes(&mut source, rng);
    }
    let edition = match rng.below(20) {
        0 => *rng.pick(&UNKNOWN),
        1..=8 => 1,
        _ => 2,
    };
    Case::ample(call, source, words).in_edition(edition)
}

// Puts nested types in the place of some that are a name.
fn with_nested_types(tokens: Vec<&'static str>, rng: &mut Rng) -> Vec<&'static str> {
    let mut out = Vec::new();
    for (place, token) in tokens.iter().enumerate() {
        let behind_colon = place > 0 && tokens[place - 1] == ":" && *token != "sealed";
        let has_list = tokens.get(place + 1) == Some(&"<");
        if !behind_colon || has_list || rng.once_in(3) {
            out.push(*token);
            continue;
        }
        let measure = rng.between(1, 5);
        let mut maker = Maker {
            rng,
            shape: Shape::Mixed,
            list: 2,
            loose: 2,
            out: Vec::new(),
        };
        maker.ty(measure);
        out.extend(maker.out);
    }
    out
}

// Makes most dates days, and puts a date in the place of a number now and then.
fn with_dates(tokens: &[&str], rng: &mut Rng) -> Vec<String> {
    let mut out = Vec::new();
    for token in tokens {
        let is_date = token.starts_with('@') && token.len() > 1;
        let is_number = token.starts_with(|c: char| c.is_ascii_digit());
        out.push(if is_date || (is_number && rng.once_in(30)) {
            date(rng)
        } else {
            token.to_string()
        });
    }
    out
}

fn date(rng: &mut Rng) -> String {
    let year = match rng.below(2) {
        0 => *rng.pick(&YEARS),
        _ => rng.below(10_000),
    };
    match rng.below(8) {
        0 => days::text(year, rng.below(14), rng.below(33)),
        1 => days::text(year, 2, 29),
        _ => days::text(year, rng.between(1, 12), rng.between(1, 28)),
    }
}

// Leaves out blanks between a `>` and a `>` or `=`.
fn drop_blanks(source: &mut Vec<u8>, rng: &mut Rng) {
    let mut at = 0;
    while at + 2 < source.len() {
        let may_join = source[at..].starts_with(b"> >") || source[at..].starts_with(b"> =");
        if may_join && !rng.once_in(4) {
            source.remove(at + 1);
        }
        at += 1;
    }
}
