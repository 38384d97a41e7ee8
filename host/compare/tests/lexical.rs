//! The proved lexer against the original as far as the tokens: answers and every word of the buffer.

use cases::exhaustive::{Strings, DEFAULT_ALPHABET};
use cases::{case, scalars, Kind, DEFAULT_SIZE};
use compare::{reader, Pair};
use oracle::{table, Call, Case};

// Quotes, dates, numbers, line ends, comments, words, and the bytes of a barred character.
const LEXICAL_ALPHABET: &str = "\"@01-\r\n/_a\u{200B}";
const DATE_ALPHABET: &str = "1-@";

fn agree(cases: impl Iterator<Item = Case>) -> u64 {
    let mut pair = Pair {
        left: reader("lexical").unwrap(),
        right: reader("proved-lexer").unwrap(),
    };
    let mut shown = Vec::new();
    let count = pair.compare(cases.map(Ok), &mut shown).unwrap();
    assert_eq!(
        count.disagreements,
        0,
        "{count}\n{}",
        String::from_utf8_lossy(&shown)
    );
    count.cases
}

fn strings(alphabet: &str, longest: usize) -> impl Iterator<Item = Case> {
    Strings::new(alphabet, longest).map(|text| Case::ample(Call::Expr, text, Vec::new()))
}

#[test]
fn generated_cases() {
    for (place, (kind, name)) in Kind::NAMES.into_iter().enumerate() {
        let count = match kind {
            Kind::Limits => 30,
            Kind::Words => 4_000,
            _ => 14_000,
        };
        let seed = 1000 + place as u64;
        let compared = agree((0..count).map(|index| case(kind, seed, index, DEFAULT_SIZE)));
        println!("{name}: {compared} cases");
    }
}

#[test]
fn short_strings() {
    agree(strings(DEFAULT_ALPHABET, 4));
    agree(strings(LEXICAL_ALPHABET, 4));
    agree(strings(DATE_ALPHABET, 11));
}

#[test]
fn all_scalars() {
    assert!(agree(scalars::all()) > 0x10_F800);
}

// Every length of the token buffer from none to more than the tokens take.
#[test]
fn rooms() {
    let texts = [
        "",
        "a",
        "a + 1;",
        "contract C { }",
        "a #",
        "\"",
        "let msg = 1;",
    ];
    for words in [Vec::new(), table::original()] {
        for text in texts {
            agree((0..3 * text.len() + 8).map(|token_words| Case {
                token_words,
                ..Case::ample(Call::Stmt, text.into(), words.clone())
            }));
        }
    }
}

// Each word of a table is found, wherever it stands in it. The table of 1,038 words is the longest with a short index.
#[test]
fn every_word_of_a_table() {
    for count in [1, 2, 60, 100, 1038, 1039, 4000] {
        let words: Vec<String> = (0..count)
            .map(|n| format!("w{}", n * 7919 % 10_007))
            .collect();
        let table = table::encode(words.iter().map(String::as_str));
        let step = count / 50 + 1;
        agree(words.iter().step_by(step).map(|word| {
            let source = format!("w a {word}0 {word}").into_bytes();
            Case::ample(Call::Expr, source, table.clone())
        }));
    }
}
