//! Editions, as request R-6 of document 02 says and as its open points were settled. No reader but the oracle is asked.

mod common;

use common::lines;
use oracle::Call::{self, Expr, Item, Program, Stmt, Type};
use oracle::{table, Answer, Case, Outcome, MAX_SOURCE};

fn read(edition: u32, call: Call, text: &str) -> Outcome {
    oracle::read(&Case::ample(call, text.into(), Vec::new()).in_edition(edition))
}

// The verdict and the tree, with an empty table and room enough.
fn answer(edition: u32, call: Call, text: &str) -> String {
    lines(&read(edition, call, text), false)
}

// Rows of edition 2: a call, its text and the lines of the answer; a last line `*` stands for any further lines.
fn check(rows: &[(Call, &str, &str)]) {
    for (call, text, expected) in rows {
        let got = answer(2, *call, text);
        let fits = match expected.strip_suffix('*') {
            Some(front) => got.starts_with(front),
            None => got == *expected,
        };
        let name = call.name();
        assert!(fits, "{name} {text:?}\nexpected:\n{expected}\ngot:\n{got}");
    }
}

fn is_accepted(edition: u32, call: Call, text: &str) -> bool {
    matches!(read(edition, call, text).answer, Answer::Accepted { .. })
}

#[test]
fn two_closers() {
    check(&[
        (
            Type,
            "A<B<C>>",
            "A 7 3\nN 20 0 4 4 5 0\nN 20 0 2 2 6 1\nN 20 0 0 0 7 1\n",
        ),
        (
            Type,
            "Map<A, Map<B, C>>",
            "A 11 5\nN 20 0 2 4 5 0\nN 20 0 6 11 12 0\nN 20 0 8 14 15 0\nN 20 0 4 7 16 2\n\
             N 20 0 0 0 17 2\n",
        ),
        // An Int and m-of-n may stand before it too.
        (
            Type,
            "A<B<1>>",
            "A 7 3\nN 28 0 4 4 5 0\nN 20 0 2 2 6 1\nN 20 0 0 0 7 1\n",
        ),
        (
            Type,
            "A<B<1 of 2>>",
            "A 9 5\nN 28 0 4 4 5 0\nN 28 0 6 9 10 0\nN 21 0 5 4 10 2\nN 20 0 2 2 11 1\n\
             N 20 0 0 0 12 1\n",
        ),
        // Two of them, and one behind a `>`.
        (
            Type,
            "A<B<C<D<E>>>>",
            "A 12 5\nN 20 0 8 8 9 0\nN 20 0 6 6 10 1\nN 20 0 4 4 11 1\nN 20 0 2 2 12 1\n\
             N 20 0 0 0 13 1\n",
        ),
        (
            Type,
            "A<B<C<D> >>",
            "A 10 4\nN 20 0 6 6 7 0\nN 20 0 4 4 8 1\nN 20 0 2 2 10 1\nN 20 0 0 0 11 1\n",
        ),
        // Own tokens and offsets behind them.
        (
            Item,
            "state{a:A<B<C>>=1;b:A<B<C>>;}",
            "A 24 12\nN 27 0 2 6 7 0\nN 20 0 8 12 13 0\nN 20 0 6 10 14 1\nN 20 0 4 8 15 1\n\
             N 28 0 11 16 17 0\nN 10 2 3 6 18 3\nN 27 0 13 18 19 0\nN 20 0 19 24 25 0\n\
             N 20 0 17 22 26 1\nN 20 0 15 20 27 1\nN 10 0 14 18 28 2\nN 5 0 0 0 29 2\n",
        ),
    ]);
}

#[test]
fn tokens_keep_the_pair() {
    let tokens = "T 1 0 1\nT 52 1 2\nT 1 2 3\nT 52 3 4\nT 1 4 5\nT 61 5 7\nT 62 7 7\n";
    let shown = lines(&read(2, Type, "A<B<C>>"), true);
    assert!(shown.starts_with(&format!("A 7 3\n{tokens}")), "{shown}");
    let shown = lines(&read(2, Type, "A<1>>"), true);
    let tokens = "T 1 0 1\nT 52 1 2\nT 2 2 3\nT 61 3 5\nT 62 5 5\n";
    assert_eq!(shown, format!("R 22 4 5 0 53 0\n{tokens}"));
}

// Where an argument must begin it stays whole, and so it does with no list open.
#[test]
fn it_is_parted_only_where_a_list_must_close() {
    check(&[
        (Type, "A<1>>", "R 22 4 5 0 53 0\n"),
        (Type, "A<1 of 2>>", "R 22 9 10 0 53 0\n"),
        (Type, "A<>>", "R 18 2 4 0 61 0\n"),
        (Type, "A<B,>>", "R 18 4 6 0 61 0\n"),
        (Type, "A<1 of>>", "R 14 6 8 0 61 0\n"),
        (Type, "A>>", "R 22 1 3 0 61 0\n"),
        (Item, "state{a:A>>;}", "R 12 9 11 41 61 0\n"),
        (Item, "event E(a:A>>);", "R 12 11 13 39 61 0\n"),
    ]);
}

#[test]
fn a_second_closer_that_is_not_wanted() {
    check(&[
        (Item, "state{a:A<B>>;}", "R 12 12 13 41 53 0\n"),
        (Item, "event E(a:A<B>>);", "R 12 14 15 39 53 0\n"),
        (Item, "entry e(a:A<B>>){}", "R 12 14 15 39 53 0\n"),
        (
            Item,
            "event E(a:sealed A<B>>signed by c);",
            "R 12 21 22 39 53 0\n",
        ),
        (
            Program,
            "contract C{state{a:A<B>>;}}",
            "R 12 23 24 41 53 0\n",
        ),
        (Type, "A<B>>", "R 22 4 5 0 53 0\n"),
        // What follows does not matter.
        (Type, "A<B>>>", "R 22 4 5 0 53 0\n"),
        (Type, "A<B>> x", "R 22 4 5 0 53 0\n"),
        (Type, "A<B>>,C>", "R 22 4 5 0 53 0\n"),
        (Item, "state{a:A<B>>=1;}", "R 12 12 13 41 53 0\n"),
        (Item, "state{a:A<B>>,", "R 12 12 13 41 53 0\n"),
        // A `>` behind it is a token of its own.
        (Type, "A<B<C>>>", "R 22 7 8 0 53 0\n"),
        (Type, "A<B<C>> >", "R 22 8 9 0 53 0\n"),
        (Type, "A<B<C>>>>", "R 22 7 9 0 61 0\n"),
    ]);
}

#[test]
fn greater_or_equal_stays() {
    check(&[
        (Item, "state{a:A<B<C<D>>>=1;}", "R 12 17 19 53 55 0\n"),
        (Item, "state{a:A<B<C>>=1;}", "A 15 7\n*"),
        (Item, "state{a:A<B<C>> =1;}", "A 15 7\n*"),
        (Item, "state { a: Set<A>= 1; }", "R 12 16 18 53 55 0\n"),
    ]);
}

#[test]
fn nesting() {
    let closed = |openings: usize, middle: &str, closers: &str| {
        format!("{}{middle}{closers}", "A<".repeat(openings))
    };
    check(&[
        (Type, &closed(65, "", ">>"), "R 20 130 132 0 0 0\n"),
        (Type, &closed(64, "A", &">>".repeat(32)), "A 162 65\n*"),
        (
            Type,
            &closed(65, "A", &">>".repeat(33)),
            "R 20 130 131 0 0 0\n",
        ),
        // An Int does not count, so that one more list may be open.
        (
            Type,
            &closed(65, "1", &(">>".repeat(32) + ">")),
            "A 165 66\n*",
        ),
        (
            Type,
            &closed(65, "1", &">>".repeat(33)),
            "R 22 196 197 0 53 0\n",
        ),
    ]);
}

#[test]
fn expressions_are_untouched() {
    for (call, text) in [
        (Item, "entry e()limits a<b>>c{}"),
        (Expr, "a<b>>c"),
        (Expr, "f(a<b>>c)"),
        (Stmt, "a = b < c >> d;"),
        (Item, "state { a: A<B<C> > = d < e >> f; }"),
    ] {
        assert_eq!(answer(1, call, text), answer(2, call, text), "{text}");
        assert!(is_accepted(2, call, text), "{text}");
    }
    let both = "state { a: A<B<C>> = d < e >> f; }";
    assert!(is_accepted(2, Item, both) && !is_accepted(1, Item, both));
}

#[test]
fn dates() {
    check(&[
        (Expr, "@2024-02-29", "A 2 1\nN 29 0 0 0 11 0\n"),
        (Expr, "@0000-02-29", "A 2 1\nN 29 0 0 0 11 0\n"),
        (Expr, "@2024-02-30", "R 28 0 11 0 0 0\n"),
        (Expr, "@2023-02-29", "R 28 0 11 0 0 0\n"),
        (Expr, "@1900-02-29", "R 28 0 11 0 0 0\n"),
        (Expr, "@0000-00-00", "R 28 0 11 0 0 0\n"),
        (Expr, "@2024-99-99", "R 28 0 11 0 0 0\n"),
        (Expr, "2024-02-30", "R 7 0 10 0 0 0\n"),
        (Expr, "@2024-02-301", "R 10 0 1 0 0 0\n"),
        (Expr, "@2024-02-30x", "R 28 0 11 0 0 0\n"),
        (Expr, "@2024-02-29x", "R 22 11 12 0 1 0\n"),
        (Expr, "f(@2024-02-29, @2024-02-30)", "R 28 15 26 0 0 0\n"),
        // In strings and comments there are none.
        (
            Expr,
            "\"@2024-02-30\" // @2024-02-30",
            "A 2 1\nN 30 0 0 0 13 0\n",
        ),
        (Stmt, "a = @2024-04-31;", "R 28 4 15 0 0 0\n"),
        (Type, "A<@2024-04-31>", "R 28 2 13 0 0 0\n"),
        (
            Program,
            "contract C{invariant a<@2024-06-31;}",
            "R 28 23 34 0 0 0\n",
        ),
    ]);
    // In edition 1 a date is a shape.
    assert!(is_accepted(1, Expr, "@2024-02-30"));
}

// Among 6 to 10 the place decides; 3 to 5 come first wherever they stand, 28 before 11 to 23.
#[test]
fn order_of_28() {
    check(&[
        (Expr, "00 @2024-02-30", "R 8 0 2 0 0 0\n"),
        (Expr, "@2024-02-30 00", "R 28 0 11 0 0 0\n"),
        (Expr, "2024-02-30 @2024-02-30", "R 7 0 10 0 0 0\n"),
        (Expr, "@2024-02-30 2024-02-30", "R 28 0 11 0 0 0\n"),
        (Expr, "\"a\n @2024-02-30", "R 9 0 2 0 0 0\n"),
        (Expr, "@2024-02-30\"a", "R 28 0 11 0 0 0\n"),
        (Expr, "# @2024-02-30", "R 10 0 1 0 0 0\n"),
        (Expr, "@2024-02-30#", "R 28 0 11 0 0 0\n"),
        (Expr, "@2024-02-30 @2024-02-301", "R 28 0 11 0 0 0\n"),
        (Expr, "@2024-02-301 @2024-02-30", "R 10 0 1 0 0 0\n"),
        (Expr, "@2024-02-30 \r", "R 4 12 13 0 0 0\n"),
        (Expr, "@2024-02-30 \u{AD}", "R 5 12 13 0 0 0\n"),
        (Expr, ") @2024-02-30", "R 28 2 13 0 0 0\n"),
        (Type, "A<B>> @2024-02-30", "R 28 6 17 0 0 0\n"),
    ]);
    let read = |source: &[u8], words: &[u8], token_words| {
        let case = Case::ample(Expr, source.to_vec(), words.to_vec()).in_edition(2);
        let outcome = oracle::read(&Case {
            token_words,
            ..case
        });
        lines(&outcome, true)
    };
    assert_eq!(read(b"@2024-02-30 \xFF", &[], 42), "R 3 12 13 0 0 0\n");
    assert_eq!(read(b"@2024-02-30", &[], 0), "R 28 0 11 0 0 0\n");
    assert_eq!(read(b"@2024-02-29", &[], 5), "R 11 0 0 0 0 2\n");
    assert_eq!(read(b"@2024-02-30", b"F", 36), "R 1 0 0 0 0 0\n");
    let words = table::encode(["a", "msg"]);
    assert_eq!(read(b"a @2024-02-30", &words, 42), "R 6 0 1 0 0 0\n");
    assert_eq!(read(b"@2024-02-30a", &words, 42), "R 28 0 11 0 0 0\n");
    assert_eq!(read(b"@2024-02-29a", &words, 42), "R 6 11 12 0 0 0\n");
    assert_eq!(read(b"@2024-02-30 msg", &words, 48), "R 28 0 11 0 0 0\n");
    // A word of the original's own list that is not lent.
    assert_eq!(read(b"wei @2024-02-30", &words, 48), "R 28 4 15 0 0 0\n");
}

#[test]
fn unknown_editions() {
    for edition in [0, 3, 4, 28, 1 << 16, (1 << 16) + 1, 1 << 31, u32::MAX] {
        for call in Call::ALL {
            // 29 comes before 1, and before 3.
            for (source, words) in [(&b""[..], &b""[..]), (b"a", b"F"), (b"\xFF", b"")] {
                let case = Case::ample(call, source.to_vec(), words.to_vec());
                let outcome = oracle::read(&case.in_edition(edition));
                assert_eq!(lines(&outcome, true), "R 29 0 0 0 0 0\n");
                assert!(outcome.tokens.iter().all(|word| *word == 0));
            }
        }
    }
}

// What the refusals leave in the buffers, and needs.
#[test]
fn rooms_and_buffers() {
    let tokens = "T 1 0 1\nT 52 1 2\nT 1 2 3\nT 52 3 4\nT 1 4 5\nT 61 5 7\nT 62 7 7\n";
    let read = |token_words, tree_words| {
        let case = Case::ample(Type, b"A<B<C>>".to_vec(), Vec::new()).in_edition(2);
        let outcome = oracle::read(&Case {
            token_words,
            tree_words,
            ..case
        });
        assert_eq!(outcome.tokens.len(), token_words);
        assert_eq!(outcome.tree.len(), tree_words);
        lines(&outcome, true)
    };
    assert_eq!(read(20, 18), "R 11 0 0 0 0 7\n");
    assert_eq!(read(21, 17), format!("R 23 0 0 0 0 3\n{tokens}"));
    assert!(read(21, 18).starts_with("A 7 3\n"));
}

// The text in which a `>>` is parted may be longer than any source.
#[test]
fn the_longest_source() {
    let mut source = b"A<B<C>>".to_vec();
    source.resize(MAX_SOURCE, b' ');
    let case = Case::ample(Type, source, Vec::new()).in_edition(2);
    let shown = lines(&oracle::read(&case), false);
    assert_eq!(
        shown,
        "A 7 3\nN 20 0 4 4 5 0\nN 20 0 2 2 6 1\nN 20 0 0 0 7 1\n"
    );
}
