//! Document 01's "Readings on each side" and dump example as rows of data, then readings where it is silent.

mod common;

use common::lines;
use oracle::Call::{self, Expr, Item, Program, Stmt, Type};
use oracle::{frame, table, Case, Outcome};

/// A call, its text and the lines of the answer; a last line `*` stands for any further lines.
type Row = (Call, String, &'static str);

fn row(call: Call, text: impl Into<String>, answer: &'static str) -> Row {
    (call, text.into(), answer)
}

fn check(rows: Vec<Row>, answer: fn(Call, &str) -> String) {
    for (call, text, expected) in rows {
        let got = answer(call, &text);
        let fits = match expected.strip_suffix('*') {
            Some(front) => got.starts_with(front),
            None => got == expected,
        };
        assert!(
            fits,
            "{} {text:?}\nexpected:\n{expected}\ngot:\n{got}",
            call.name()
        );
    }
}

fn read(call: Call, text: &str) -> Outcome {
    oracle::read(&Case::ample(call, text.into(), Vec::new()))
}

// The verdict and the tree, with an empty table and room enough.
fn answer(call: Call, text: &str) -> String {
    lines(&read(call, text), false)
}

// The tokens alone.
fn tokens(call: Call, text: &str) -> String {
    let mut out = Vec::new();
    frame::write_tokens(&read(call, text).tokens, &mut out);
    String::from_utf8(out).unwrap()
}

// `inner` within so many openings and as many closings.
fn deep(open: &str, times: usize, inner: &str, close: &str) -> String {
    format!("{}{inner}{}", open.repeat(times), close.repeat(times))
}

fn sum(ones: usize) -> String {
    vec!["1"; ones].join("+")
}

#[test]
fn readings_marked_p() {
    check(
        vec![
            row(Program, "", "A 1 1\nN 1 0 0 0 0 0\n"),
            row(
                Stmt,
                "(a) = 1;",
                "A 7 3\nN 27 0 1 1 2 0\nN 28 0 4 6 7 0\nN 25 0 3 1 8 2\n",
            ),
            row(Expr, "0_1", "R 8 0 3 0 0 0\n"),
            row(Expr, "00", "R 8 0 2 0 0 0\n"),
            row(Expr, "0", "A 2 1\nN 28 0 0 0 1 0\n"),
            row(Expr, "1_", "A 2 1\nN 28 0 0 0 2 0\n"),
            row(Expr, "2024-01-01", "R 7 0 10 0 0 0\n"),
            row(Expr, "@2024-99-99", "A 2 1\nN 29 0 0 0 11 0\n"),
            row(Expr, "2024-01-011", "R 8 5 7 0 0 0\n"),
            row(Stmt, "a + b = 1;", "R 21 0 5 0 0 0\n"),
            row(Type, "Map<A, Map<B, C>>", "R 12 15 17 53 61 0\n"),
            row(Expr, "\u{FEFF}1", "R 10 0 1 0 0 0\n"),
            row(Expr, "1\u{FEFF}", "R 5 1 2 0 0 0\n"),
            row(Expr, ") #", "R 10 2 3 0 0 0\n"),
        ],
        answer,
    );
}

#[test]
fn readings_not_marked() {
    let tail = "+1".repeat(40);
    check(
        vec![
            row(Expr, sum(64), "A 128 127\n*"),
            row(Expr, sum(65), "R 20 128 129 0 0 0\n"),
            row(
                Expr,
                deep("(", 63, "1", ")"),
                "A 128 1\nN 28 0 63 63 64 0\n",
            ),
            row(Expr, deep("(", 64, "1", ")"), "R 20 64 65 0 0 0\n"),
            row(Expr, format!("({}){tail}", sum(41)), "A 164 161\n*"),
            row(Expr, format!("{}{tail}", sum(41)), "R 20 128 129 0 0 0\n"),
            row(
                Program,
                "contract C{entry e() after 3 day {}}",
                "R 12 29 32 36 1 0\n",
            ),
            row(Expr, "\"\\\"", "A 2 1\nN 30 0 0 0 3 0\n"),
            row(
                Program,
                "contract C { }",
                "A 5 3\nN 27 0 1 9 10 0\nN 3 0 0 0 14 1\nN 1 0 4 0 14 1\n",
            ),
        ],
        answer,
    );
}

#[test]
fn tokens_of_the_readings() {
    check(
        vec![
            row(Program, "", "T 62 0 0\n"),
            row(Expr, "@2024-99-99", "T 3 0 11\nT 62 11 11\n"),
            row(Expr, "\"\\\"", "T 4 0 3\nT 62 3 3\n"),
            row(
                Type,
                "Map<A, Map<B, C>>",
                "T 1 0 3\nT 52 3 4\nT 1 4 5\nT 40 5 6\n*",
            ),
        ],
        tokens,
    );
}

// The first place in reading decides, and the first token that may stand is wanted.
#[test]
fn first_place_decides() {
    check(
        vec![
            row(Stmt, "(a+b) = )", "R 21 1 4 0 0 0\n"),
            row(Expr, deep("(", 64, ")", ""), "R 20 64 65 0 0 0\n"),
            row(Expr, "-".repeat(64), "R 20 64 64 0 0 0\n"),
            row(Expr, "-".repeat(63), "R 17 63 63 0 62 0\n"),
            row(Type, deep("A<", 65, ">", ""), "R 20 130 131 0 0 0\n"),
            row(Program, "contract C {", "R 12 12 12 37 62 0\n"),
            row(Program, "contract C { 1", "R 19 13 14 0 2 0\n"),
            row(Item, "state {", "R 12 7 7 37 62 0\n"),
            row(Item, "state { 1", "R 13 8 9 0 2 0\n"),
            row(Item, "genesis {", "R 12 9 9 37 62 0\n"),
            row(Item, "genesis { )", "R 17 10 11 0 39 0\n"),
            row(Stmt, "a b", "R 12 2 3 41 1 0\n"),
            row(Type, "Q<A B", "R 12 4 5 53 1 0\n"),
            row(Item, "entry e() x {}", "R 12 10 11 36 1 0\n"),
        ],
        answer,
    );
}

// Spellings count, `of` is an own token, numbers as type arguments do not nest.
#[test]
fn spelled_words_and_numbers() {
    check(
        vec![
            row(Type, "Q<1 x>", "R 12 4 5 53 1 0\n"),
            row(
                Type,
                "Q<1 of 2>",
                "A 7 4\nN 28 0 2 2 3 0\nN 28 0 4 7 8 0\nN 21 0 3 2 8 2\nN 20 0 0 0 9 1\n",
            ),
            row(
                Program,
                "import {Quorum} from \"q\";",
                "A 8 4\nN 27 0 2 8 14 0\nN 30 0 5 21 24 0\nN 2 0 0 0 25 2\nN 1 0 7 0 25 1\n",
            ),
            row(Type, deep("A<", 65, "1 of 2", " >"), "A 199 68\n*"),
            row(Type, deep("A<", 65, "1", " >"), "A 197 66\n*"),
            row(Type, deep("A<", 65, "A", " >"), "R 20 130 131 0 0 0\n"),
        ],
        answer,
    );
    check(
        vec![row(
            Program,
            "import {Quorum} from \"q\";",
            "T 33 0 6\nT 36 7 8\nT 23 8 14\n*",
        )],
        tokens,
    );
}

// Parentheses widen no span, and the program's own token may lie behind its span.
#[test]
fn spans_and_own_tokens() {
    check(
        vec![
            row(Stmt, "-(a) = 1;", "R 21 0 3 0 0 0\n"),
            row(
                Item,
                "entry e() limits (a) {}",
                "A 11 4\nN 27 0 1 6 7 0\nN 27 0 6 18 19 0\nN 17 0 4 10 19 1\nN 9 0 0 0 23 2\n",
            ),
            row(
                Program,
                "contract C { } ",
                "A 5 3\nN 27 0 1 9 10 0\nN 3 0 0 0 14 1\nN 1 0 4 0 14 1\n",
            ),
        ],
        answer,
    );
    let all = "T 5 0 8\nT 1 9 10\nT 36 11 12\nT 37 13 14\nT 62 15 15\n";
    check(vec![row(Program, "contract C { } ", all)], tokens);
}

// Dates where a token starts, CR within an open string, bytes that start no token.
#[test]
fn lexical_edges() {
    check(
        vec![
            row(Expr, "12024-10-10", "A 6 5\n*"),
            row(Expr, "a-2024-10-10", "R 7 2 12 0 0 0\n"),
            row(Expr, "2024-01-01x", "R 7 0 10 0 0 0\n"),
            row(Expr, "0024-01-01", "R 7 0 10 0 0 0\n"),
            row(Expr, "@2024-01-011", "R 10 0 1 0 0 0\n"),
            row(Expr, "\"a\r\n", "R 9 0 3 0 0 0\n"),
            row(Expr, "a & b", "R 10 2 3 0 0 0\n"),
            row(Expr, "a | b", "R 10 2 3 0 0 0\n"),
            row(Expr, "@", "R 10 0 1 0 0 0\n"),
            row(Expr, "a\0", "R 10 1 2 0 0 0\n"),
            row(Expr, "a \u{1b}", "R 10 2 3 0 0 0\n"),
            row(Expr, "\"\0\u{1b}\" // \0\u{1b}", "A 2 1\nN 30 0 0 0 4 0\n"),
        ],
        answer,
    );
}

// What follows a program, durations, and refusals that name no token.
#[test]
fn trailing_tokens_and_durations() {
    check(
        vec![
            row(Program, "asset A;", "R 22 0 5 0 17 0\n"),
            row(
                Program,
                "contract C { } import {a} from \"b\";",
                "R 22 15 21 0 33 0\n",
            ),
            row(Item, "entry e() after 3 days.x {}", "R 12 22 23 36 43 0\n"),
            row(
                Item,
                "entry e() after 3 from 4 days {}",
                "R 12 25 29 36 1 0\n",
            ),
            row(
                Item,
                "entry e() after 3 days from a {}",
                "A 12 6\nN 27 0 1 6 7 0\nN 28 0 5 16 17 0\nN 27 0 6 18 22 0\nN 27 0 8 28 29 0\n\
                 N 19 3 4 10 29 3\nN 9 0 0 0 32 2\n",
            ),
        ],
        answer,
    );
}

// The word table may bar any word: a call, a text, the words and the answer.
#[test]
fn lent_words() {
    let rows: [(Call, &str, &[&str], &str); 12] = [
        (Program, "contract C { }", &["contract"], "R 6 0 8 0 0 0\n"),
        (Type, "Q<1 of 2>", &["of"], "R 6 4 6 0 0 0\n"),
        (
            Item,
            "entry e() after 3 days {}",
            &["days"],
            "R 6 18 22 0 0 0\n",
        ),
        (Expr, "a #", &["a"], "R 6 0 1 0 0 0\n"),
        (Expr, "# a", &["a"], "R 10 0 1 0 0 0\n"),
        (Expr, "a \r", &["a"], "R 4 2 3 0 0 0\n"),
        (Expr, "msg msg2", &["msg2"], "R 6 4 8 0 0 0\n"),
        (Expr, "msg", &["xxx", "___"], "A 2 1\nN 27 0 0 0 3 0\n"),
        (Expr, "1msg", &["a"], "R 22 1 4 0 1 0\n"),
        (Expr, "0wei", &["wei"], "R 6 1 4 0 0 0\n"),
        (Expr, "@2024-01-01_msg", &["_msg"], "R 6 11 15 0 0 0\n"),
        (
            Expr,
            "f(\"msg\") // msg",
            &["msg"],
            "A 5 3\nN 27 0 0 0 1 0\nN 30 0 2 2 7 0\nN 40 0 1 0 8 2\n",
        ),
    ];
    for (call, text, words, expected) in rows {
        let case = Case::ample(call, text.into(), table::encode(words.iter().copied()));
        assert_eq!(lines(&oracle::read(&case), false), expected, "{text}");
    }
}

#[test]
fn no_room_for_the_empty_program() {
    let mut case = Case::ample(Program, Vec::new(), Vec::new());
    case.token_words = 0;
    assert_eq!(lines(&oracle::read(&case), true), "R 11 0 0 0 0 1\n");
}

#[test]
fn example_contract_is_accepted() {
    let text = include_str!("../../../examples/escrow.quanta");
    check(vec![row(Program, text, "A *")], answer);
}
