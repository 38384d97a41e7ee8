//! Every call at the limits: rooms, empty sources, the longest sources and tables and one byte more.

use crate::limits::filled;
use crate::tables;
use oracle::{table, Answer, Call, Case, MAX_SOURCE, TOKEN_WORDS, TREE_WORDS};

/// For each call a text that is accepted, one that the parser refuses and one that the lexer refuses.
const TEXTS: [(Call, &str, &str, &str); 5] = [
    (
        Call::Program,
        "import {Quorum} from \"q\"; contract C { asset A; }",
        "contract C { asset A; } asset",
        "contract C { asset A; } #",
    ),
    (
        Call::Item,
        "entry e(a: A) writes(b) { b = 1; }",
        "entry e(a: A) writes(b) { 1 = b; }",
        "entry e() { a = 007; }",
    ),
    (
        Call::Stmt,
        "let a = f(1, -b).c;",
        "let a = f(1, -b).1;",
        "let a = \"b;",
    ),
    (Call::Expr, "(a + 1) * b", "(a + 1) b", "a & b"),
    (
        Call::Type,
        "Map<A, Q<1 of 2> >",
        "Map<A, Q<1 of 2>>",
        "A<@>",
    ),
];

/// The cases.
pub fn all() -> impl Iterator<Item = Case> {
    rooms().chain(empty()).chain(longest())
}

// Rooms for none, one word or one record too few, exactly, with words over, ample: in both buffers.
fn rooms() -> impl Iterator<Item = Case> {
    TEXTS
        .into_iter()
        .flat_map(|(call, accepted, refused, bad)| {
            let (tokens, records) = counts(&ample(call, accepted));
            [accepted, refused, bad].into_iter().flat_map(move |text| {
                let most = ample(call, text);
                let trees = lengths(records, TREE_WORDS, most.tree_words);
                lengths(tokens, TOKEN_WORDS, most.token_words)
                    .into_iter()
                    .flat_map(move |token_words| {
                        let most = most.clone();
                        trees.clone().into_iter().map(move |tree_words| Case {
                            token_words,
                            tree_words,
                            ..most.clone()
                        })
                    })
            })
        })
}

fn ample(call: Call, text: &str) -> Case {
    Case::ample(call, text.into(), Vec::new())
}

fn counts(case: &Case) -> (usize, usize) {
    match oracle::read(case).answer {
        Answer::Accepted { tokens, records } => (tokens as usize, records as usize),
        Answer::Refused(refusal) => panic!("refused: {refusal:?}"),
    }
}

fn lengths(count: usize, width: usize, ample: usize) -> Vec<usize> {
    let exact = count * width;
    let around = exact - width..=exact + width;
    [0, 1, width - 1, width]
        .into_iter()
        .chain(around)
        .chain([ample])
        .collect()
}

// No byte, a blank, a comment, with tables and rooms around one record.
fn empty() -> impl Iterator<Item = Case> {
    let texts = ["", " ", "\n", "//", "\r\n"];
    Call::ALL.into_iter().flat_map(move |call| {
        texts.into_iter().flat_map(move |text| {
            [Vec::new(), table::original()]
                .into_iter()
                .flat_map(move |words| {
                    (0..=2 * TREE_WORDS).map(move |tree_words| Case {
                        edition: 1,
                        call,
                        source: text.into(),
                        words: words.clone(),
                        token_words: tree_words / 2,
                        tree_words,
                    })
                })
        })
    })
}

// The longest sources and one byte more, the longest tables and one byte more.
fn longest() -> impl Iterator<Item = Case> {
    let sources = TEXTS
        .into_iter()
        .flat_map(|(call, accepted, refused, bad)| {
            [accepted, refused, bad].into_iter().flat_map(move |text| {
                [MAX_SOURCE - 1, MAX_SOURCE, MAX_SOURCE + 1]
                    .into_iter()
                    .flat_map(move |length| {
                        let front = Case::ample(call, filled(length, "", " ", text), Vec::new());
                        let back = Case::ample(call, filled(length, text, "\n", ""), Vec::new());
                        let none = Case {
                            token_words: 0,
                            tree_words: 0,
                            ..front.clone()
                        };
                        [front, back, none]
                    })
            })
        });
    let long_tables = TEXTS.into_iter().flat_map(|(call, accepted, ..)| {
        let longest = tables::longest();
        let longer = [&longest[..], b"F"].concat();
        let bad = [b"G", &longest[1..]].concat();
        let cut = longest[..longest.len() - 1].to_vec();
        [longest, longer, bad, cut]
            .into_iter()
            .map(move |words| Case::ample(call, accepted.into(), words))
    });
    sources.chain(long_tables)
}
