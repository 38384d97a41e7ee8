//! Word tables of many words, and sources of words that are nearly in them.

use crate::rng::Rng;
use oracle::table::{MARK, MAX_TABLE};
use oracle::{table, Call, Case};

/// How the words of a table resemble each other.
#[derive(Clone, Copy)]
pub enum Likeness {
    /// Words of any length and any letters.
    None,
    /// Words of one length with the same first bytes.
    Prefix,
    /// Words of 200 to 255 bytes with the same first bytes.
    Long,
    /// Few words, each many times.
    Doubles,
    /// Words of three bytes.
    Three,
    /// Words of one or two bytes.
    Short,
}

impl Likeness {
    pub const ALL: [Likeness; 6] = [
        Likeness::None,
        Likeness::Prefix,
        Likeness::Long,
        Likeness::Doubles,
        Likeness::Three,
        Likeness::Short,
    ];
}

/// A source of words near those of a table of many words; in half the cases one of them is in it.
pub fn case(rng: &mut Rng) -> Case {
    let longest = match rng.below(40) {
        0 => MAX_TABLE,
        1..=19 => rng.between(400, 700),
        _ => rng.between(1, 3000),
    };
    let words = listed(*rng.pick(&Likeness::ALL), longest, rng);
    let mut source = Vec::new();
    let count = rng.below(30);
    let hit = rng.below(2 * count + 1);
    for place in 0..count {
        let word = rng.pick(&words);
        if place == hit {
            source.extend_from_slice(word.as_bytes());
        } else {
            source.extend_from_slice(near(word, rng).as_bytes());
        }
        source.push(*rng.pick(b" \n\t.,(+"));
    }
    let call = *rng.pick(&Call::ALL);
    Case::ample(
        call,
        source,
        table::encode(words.iter().map(String::as_str)),
    )
}

/// At least one word, and as many as fill a table up to this length.
pub fn listed(likeness: Likeness, longest: usize, rng: &mut Rng) -> Vec<String> {
    let mut words: Vec<String> = Vec::new();
    let mut length = 0;
    loop {
        let word = match likeness {
            Likeness::None => random_word(rng, 2, 12),
            Likeness::Prefix => format!("account_of_{}", random_word(rng, 5, 5)),
            Likeness::Long => format!("{}{}", "x_".repeat(98), random_word(rng, 4, 59)),
            Likeness::Doubles if words.len() >= 3 => words[words.len() % 3].clone(),
            Likeness::Doubles => random_word(rng, 3, 9),
            Likeness::Three => random_word(rng, 3, 3),
            Likeness::Short => random_word(rng, 1, 2),
        };
        length += MARK.len() + 1 + word.len();
        if length > longest && !words.is_empty() {
            return words;
        }
        words.push(word);
    }
}

fn random_word(rng: &mut Rng, shortest: usize, longest: usize) -> String {
    const STARTS: &[u8] = b"abcdefghijklmnopqrstuvwxyzABCXYZ_";
    const OTHERS: &[u8] = b"abcdefghijklmnopqrstuvwxyzABCXYZ_0189";
    let mut word = char::from(*rng.pick(STARTS)).to_string();
    for _ in 1..rng.between(shortest, longest) {
        word.push(char::from(*rng.pick(OTHERS)));
    }
    word
}

// A word that differs from this one in a byte or in its length; it may be another word of the table.
fn near(word: &str, rng: &mut Rng) -> String {
    let (front, last) = word.split_at(word.len() - 1);
    match rng.below(4) {
        0 => format!("{front}{}", if last == "q" { "r" } else { "q" }),
        1 => format!("{word}_"),
        2 if !front.is_empty() => front.to_string(),
        _ => format!("Q{}", &word[1..]),
    }
}
