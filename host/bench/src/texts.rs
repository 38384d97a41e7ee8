//! The texts that are read, each a little less than 1 MiB, and the word tables that cost most.

use crate::typical;
use cases::rng::Rng;
use cases::words::{listed, Likeness};
use oracle::table::{self, MAX_TABLE};
use oracle::{Call, MAX_SOURCE};
use quanta::Edition;
use std::collections::HashSet;

// Lengths of short word tables, for which a lexer may do without an index.
const SHORT: usize = 512;
const SHORTER: usize = 128;

// A few bytes are left for what is put behind a text to have it refused there.
const LONGEST: usize = MAX_SOURCE - 8;

/// A text with its word table and the call that reads it, in an edition.
pub struct Text {
    pub name: &'static str,
    pub edition: Edition,
    pub call: Call,
    pub source: Vec<u8>,
    /// What the original reads in its place, if it is another: it knows edition 1 only.
    pub twin: Option<String>,
    pub words: Vec<u8>,
}

/// The names of the texts that are read with the original's own word list.
pub const NAMES: [&str; 12] = [
    "typical", "cjk", "cyrillic", "crlf", "quotes", "comments", "blanks", "names", "strings",
    "numbers", "symbols", "refused",
];

/// The text of this name.
pub fn text(name: &str) -> Option<Text> {
    let plain = NAMES.into_iter().find(|known| *known == name);
    match plain {
        Some(name) => Some(plain_text(name)),
        None => word_texts().into_iter().find(|text| text.name == name),
    }
}

fn plain_text(name: &'static str) -> Text {
    let rng = &mut Rng::new(7);
    let source = match name {
        "typical" => typical::program(LONGEST),
        "crlf" => typical::program(LONGEST - LONGEST / 23).replace('\n', "\r\n"),
        "refused" => typical::program(LONGEST) + "#",
        "cjk" => filled(|| format!("    title = \"{}\";\n", letters(rng, '一', 5000))),
        "cyrillic" => filled(|| format!("    title = \"{}\";\n", letters(rng, 'А', 64))),
        "quotes" => filled(|| "// “so” – ‘or so’ …\nx = \"“”‘’–—…\";\n".to_string()),
        "comments" => filled(|| format!("// {}\n", letters(rng, 'a', 26))),
        "blanks" => filled(|| format!("{}\n", " ".repeat(rng.below(16)))),
        "names" => filled(|| format!("{} ", &letters(rng, 'a', 12)[..3 + rng.below(10)])),
        "strings" => filled(|| format!("\"{}\" ", letters(rng, 'a', 26))),
        "numbers" => filled(|| format!("{} @2026-01-31 ", 1 + rng.below(1_000_000_000))),
        _ => filled(|| format!("{} ", rng.pick(&["(", ")", ">>", "+=", ";", "-", "{", "}"]))),
    };
    read_by(name, Edition::One, Call::Program, source)
}

/// Texts of words that are not in their table, which is as long as can be, or short for the last two.
pub fn word_texts() -> Vec<Text> {
    let mut rng = Rng::new(9);
    let mut list = |likeness, longest| listed(likeness, longest, &mut rng);
    let any = list(Likeness::None, MAX_TABLE);
    let few = list(Likeness::Doubles, MAX_TABLE);
    let tiny = list(Likeness::Short, MAX_TABLE);
    let short = list(Likeness::Short, SHORT);
    let shorter = list(Likeness::Short, SHORTER);
    let mut same_kind = |name, likeness| {
        let (held, missed) = (list(likeness, MAX_TABLE), list(likeness, MAX_TABLE));
        word_text(name, &held, missed)
    };
    vec![
        same_kind("any-words", Likeness::None),
        same_kind("same-front", Likeness::Prefix),
        same_kind("long-words", Likeness::Long),
        same_kind("three-bytes", Likeness::Three),
        word_text("last-byte-off", &any, changed(&any, last_byte_off)),
        word_text("doubles", &few, changed(&few, last_byte_off)),
        word_text("short-words", &tiny, changed(&tiny, last_byte_off)),
        word_text("short-table", &short, changed(&short, other_case)),
        word_text("shorter-table", &shorter, changed(&shorter, other_case)),
    ]
}

// A text of those words that are not held.
fn word_text(name: &'static str, held: &[String], mut missed: Vec<String>) -> Text {
    let barred: HashSet<&String> = held.iter().collect();
    missed.retain(|word| !barred.contains(word));
    let rng = &mut Rng::new(11);
    let source = filled(|| format!("{} ", rng.pick(&missed)));
    Text {
        words: table::encode(held.iter().map(String::as_str)),
        ..read_by(name, Edition::One, Call::Program, source)
    }
}

fn changed(words: &[String], change: fn(&[u8], usize) -> Vec<u8>) -> Vec<String> {
    let changed = words.iter().enumerate();
    let changed = changed.map(|(place, word)| change(word.as_bytes(), place));
    changed
        .map(|word| String::from_utf8(word).expect("words are ASCII"))
        .collect()
}

// The lists hold no letter from D to W.
fn last_byte_off(word: &[u8], place: usize) -> Vec<u8> {
    let other = b'D' + (place % 20) as u8;
    [&word[..word.len() - 1], &[other]].concat()
}

fn other_case(word: &[u8], _: usize) -> Vec<u8> {
    let first = match word[0] {
        b'_' => b'_',
        letter => letter ^ 0x20,
    };
    [&[first], &word[1..]].concat()
}

/// The names of the texts that the calls read: six programs, then a text for each other call.
pub const CALL_NAMES: [&str; 10] = [
    "typical", "deep", "wide", "names", "strings", "refused", "item", "stmt", "expr", "type",
];

/// The names of one program of several lengths, in KiB.
pub const GROWING: [(&str, usize); 6] = [
    ("1-KiB", 1),
    ("4-KiB", 4),
    ("16-KiB", 16),
    ("64-KiB", 64),
    ("256-KiB", 256),
    ("1024-KiB", 1024),
];

/// The names of the texts on which the editions differ, measured in edition 2 only.
pub const EDITION_2_NAMES: [&str; 3] = ["closers", "deepest", "dates"];
pub const EDITION_2_HEADING: &str =
    "types closed by `>>`, and dates; the original reads them with `> > ` for `>>`";

/// The text of this name that a call reads in an edition.
pub fn call_text(name: &str, edition: Edition) -> Option<Text> {
    let of_edition_2 = EDITION_2_NAMES.into_iter().find(|known| *known == name);
    if let (Some(name), Edition::Two) = (of_edition_2, edition) {
        return Some(edition_2_text(name, LONGEST));
    }
    let growing = GROWING.into_iter().find(|(known, _)| *known == name);
    if let Some((name, kib)) = growing {
        let longest = (1024 * kib).min(LONGEST);
        let source = typical::statements("contract C {\n    genesis {\n", "    }\n}\n", longest);
        return Some(read_by(name, edition, Call::Program, source));
    }
    let name = CALL_NAMES.into_iter().find(|known| *known == name)?;
    let rng = &mut Rng::new(13);
    let between = |front: &str, back: &str, part: &mut dyn FnMut() -> String| {
        let parts = filled_up_to(LONGEST - front.len() - back.len(), part);
        format!("{front}{parts}{back}")
    };
    let (open, close) = ("contract C {\n    genesis {\n", "    }\n}\n");
    let list = "contract C { genesis { emit E(1";
    let (call, source) = match name {
        "typical" => (Call::Program, typical::program(LONGEST)),
        "refused" => (Call::Program, typical::program(LONGEST) + "}"),
        "deep" => (Call::Program, between(open, close, &mut || deep(rng))),
        "wide" => (
            Call::Program,
            between(list, "); } }", &mut || {
                format!(",{}", rng.pick(&["a", "1", "-b", "c.d"]))
            }),
        ),
        "names" => (
            Call::Program,
            between("contract C { entry e() writes(a", ") { } }", &mut || {
                format!(", {}", &letters(rng, 'a', 12)[..3 + rng.below(10)])
            }),
        ),
        "strings" => (
            Call::Program,
            between(list, "); } }", &mut || {
                format!(", \"{}\"", letters(rng, 'a', 26))
            }),
        ),
        "item" => (Call::Item, typical::statements("genesis {\n", "}", LONGEST)),
        "stmt" => (Call::Stmt, typical::expressions("emit E(1", ");", LONGEST)),
        "expr" => (Call::Expr, typical::expressions("f(1", ")", LONGEST)),
        _ => (Call::Type, typical::types("Map<1", ">", LONGEST)),
    };
    Some(read_by(name, edition, call, source))
}

fn read_by(name: &'static str, edition: Edition, call: Call, source: String) -> Text {
    Text {
        name,
        edition,
        call,
        source: source.into_bytes(),
        twin: None,
        words: table::original(),
    }
}

// Fields whose types `>>` closes, nested as people nest them or as deeply as can be; or a list of dates.
fn edition_2_text(name: &'static str, longest: usize) -> Text {
    let rng = &mut Rng::new(17);
    let (call, front, back) = match name {
        "dates" => (Call::Expr, "f(1", ")"),
        _ => (Call::Item, "state {\n", "}"),
    };
    let parts = filled_up_to(longest - front.len() - back.len(), || match name {
        "closers" => format!("    a: {};\n", nested(rng)),
        "deepest" => format!("    a: {}A{};\n", "A<".repeat(64), ">>".repeat(32)),
        _ => format!(", @2{:03}-02-28", rng.below(1000)),
    });
    let source = format!("{front}{parts}{back}");
    Text {
        twin: Some(source.replace(">>", "> > ")),
        ..read_by(name, Edition::Two, call, source)
    }
}

fn nested(rng: &mut Rng) -> String {
    rng.pick(&[
        "Map<Address, Set<Amount>>",
        "Map<Address, Map<Id, Order>>",
        "Set<Quorum<2 of 3>>",
        "Map<Id, Map<Address, Set<Order>> >",
        "Set<Map<Id, Map<Address, Set<Order>>>>",
    ])
    .to_string()
}

// A statement whose expression has a measure of 61 to 64, by one construct.
fn deep(rng: &mut Rng) -> String {
    let times = rng.between(60, 63);
    let nest = |open: &str, times: usize, close: &str| {
        format!("{}a{}", open.repeat(times), close.repeat(times))
    };
    let deep = match rng.below(8) {
        0 => nest("(", times, ")"),
        1 => nest("checked(", times, ")"),
        2 => nest("-", times, ""),
        3 => nest("", times, ".b"),
        4 => nest("", times, "()"),
        5 => nest("f(", times / 2, ")"),
        6 => nest("", times, " + b"),
        _ => nest("(a && ", times / 2, ")"),
    };
    format!("        x = {deep};\n")
}

// Parts one after another, up to the greatest length.
fn filled(part: impl FnMut() -> String) -> String {
    filled_up_to(LONGEST, part)
}

fn filled_up_to(longest: usize, mut part: impl FnMut() -> String) -> String {
    let mut out = String::with_capacity(longest);
    loop {
        let next = part();
        if out.len() + next.len() > longest {
            return out;
        }
        out += &next;
    }
}

// 20 to 60 letters, each one of `count` from `first` on.
fn letters(rng: &mut Rng, first: char, count: usize) -> String {
    let letter = |place| char::from_u32(first as u32 + place as u32).expect("a letter");
    (0..rng.between(20, 60))
        .map(|_| letter(rng.below(count)))
        .collect()
}

#[cfg(test)]
mod tests {
    use super::*;
    use oracle::{read_lexical, Answer, Call, Case};

    fn is_accepted(text: Text) -> bool {
        assert!(text.source.len() <= LONGEST + 1, "{}", text.name);
        assert!(text.source.len() > LONGEST - LONGEST / 50, "{}", text.name);
        let case = Case::ample(Call::Program, text.source, text.words);
        matches!(read_lexical(&case).answer, Answer::Accepted { .. })
    }

    #[test]
    fn one_text_is_refused() {
        for name in NAMES {
            let accepted = is_accepted(text(name).unwrap());
            assert_eq!(accepted, name != "refused", "{name}");
        }
    }

    #[test]
    fn call_texts_are_accepted_but_one() {
        for name in CALL_NAMES {
            let text = call_text(name, Edition::One).unwrap();
            assert!(text.source.len() <= LONGEST + 1, "{name}");
            assert!(text.source.len() > LONGEST - LONGEST / 50, "{name}");
            let last = text.source.len() as u32;
            let case = Case::ample(text.call, text.source, text.words);
            for edition in [1, 2] {
                match oracle::read(&case.clone().in_edition(edition)).answer {
                    Answer::Accepted { .. } => assert!(name != "refused"),
                    Answer::Refused(refusal) => {
                        assert_eq!((name, refusal.number, refusal.end), ("refused", 22, last));
                    }
                }
            }
        }
    }

    // The oracle reads a text anew for each `>>` that it parts, so it is asked of short ones.
    #[test]
    fn texts_of_edition_2_are_accepted() {
        for name in EDITION_2_NAMES {
            assert!(call_text(name, Edition::One).is_none());
            let text = call_text(name, Edition::Two).unwrap();
            assert!(text.source.len() <= LONGEST, "{name}");
            assert!(text.source.len() > LONGEST - LONGEST / 50, "{name}");
            let short = edition_2_text(name, 4096);
            for (source, edition) in [(short.source, 2), (short.twin.unwrap().into_bytes(), 1)] {
                let case = Case::ample(short.call, source, short.words.clone());
                let answer = oracle::read(&case.in_edition(edition)).answer;
                assert!(
                    matches!(answer, Answer::Accepted { .. }),
                    "{name} {answer:?}"
                );
            }
        }
    }

    #[test]
    fn growing_texts_are_accepted() {
        for (name, kib) in GROWING {
            let text = call_text(name, Edition::One).unwrap();
            let length = text.source.len();
            assert!(length <= 1024 * kib && length > 900 * kib, "{name}");
            let case = Case::ample(text.call, text.source, text.words);
            let answer = oracle::read(&case).answer;
            assert!(matches!(answer, Answer::Accepted { .. }), "{name}");
        }
    }

    #[test]
    fn words_are_all_missed() {
        for text in word_texts() {
            let name = text.name;
            let longest = match name {
                "short-table" => SHORT,
                "shorter-table" => SHORTER,
                _ => MAX_TABLE,
            };
            assert!(text.words.len() > longest - longest.min(259), "{name}");
            assert!(is_accepted(text), "{name}");
        }
    }
}
