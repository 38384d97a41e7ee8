//! The crate's own part: names, refusals in words, buffers and walks over the tree.

use quanta::{
    call, place, raw, records, token_words, tokens, tree_words, word_table, Answer, Call, Edition,
    Node, Reading, Reason, Refusal, Span, Token, TokenKind,
};

#[test]
fn numbers_and_names() {
    assert_eq!(TokenKind::ALL.len(), 62);
    assert_eq!(Node::ALL.len(), 40);
    assert_eq!(Reason::ALL.len(), 25);
    for reason in Reason::ALL {
        assert_eq!(Reason::from_number(reason.number()), Some(*reason));
    }
    let reasons: Vec<u32> = Reason::ALL.iter().map(|reason| reason.number()).collect();
    assert_eq!(reasons, (1..=23).chain(28..=29).collect::<Vec<_>>());
    for node in Node::ALL {
        assert_eq!(Node::from_number(node.number()), Some(*node));
    }
    for (place, kind) in TokenKind::ALL.iter().enumerate() {
        assert_eq!(kind.number() as usize, place + 1);
        assert_eq!(TokenKind::from_number(kind.number()), Some(*kind));
    }
    let numbered = [
        (TokenKind::Contract, 5),
        (TokenKind::Wrapping, 35),
        (TokenKind::LBrace, 36),
        (TokenKind::Shr, 61),
        (TokenKind::Eof, 62),
    ];
    assert!(numbered
        .iter()
        .all(|(kind, number)| kind.number() == *number));
    let nodes = [
        (Node::Program, 1),
        (Node::Type, 20),
        (Node::Name, 27),
        (Node::Call, 40),
    ];
    assert!(nodes.iter().all(|(node, number)| node.number() == *number));
    assert_eq!(Reason::TreeRoom.number(), 23);
    assert_eq!(TokenKind::from_number(0), None);
    assert_eq!(TokenKind::from_number(63), None);
    assert_eq!(Reason::from_number(u32::MAX), None);
    assert!([0, 24, 27, 30]
        .iter()
        .all(|number| Reason::from_number(*number).is_none()));
}

fn refusal_in(edition: Edition, kind: Call, source: &[u8], words: &[u8]) -> String {
    let refusal = Reading::new(edition, kind, source, words).unwrap_err();
    refusal.in_source(source).to_string()
}

fn refusal(kind: Call, source: &[u8], words: &[u8]) -> String {
    refusal_in(Edition::One, kind, source, words)
}

// Every reason of edition 1 but 2, 11 and 23 in its words.
#[test]
fn refusals_in_words() {
    use Call::{Expr, Item, Program, Stmt, Type};
    let deep = "-".repeat(64);
    let rows: [(Call, &[u8], &str); 18] = [
        (
            Expr,
            b"\n\xFF",
            "3: a byte that is not UTF-8 at 1..2, line 2 column 1",
        ),
        (
            Expr,
            b"a\rb",
            "4: a carriage return without a line feed at 1..2, line 1 column 2",
        ),
        (
            Expr,
            b"\xC2\xAD",
            "5: an invisible or direction changing character at 0..1, line 1 column 1",
        ),
        (
            Expr,
            b"2024-01-01",
            "7: a date without `@` at 0..10, line 1 column 1",
        ),
        (
            Expr,
            b"a\n 007",
            "8: a number that starts with 0 at 3..6, line 2 column 2",
        ),
        (
            Expr,
            b"\"a",
            "9: a string that is not closed in its line at 0..2, line 1 column 1",
        ),
        (
            Expr,
            b"a #",
            "10: a byte that starts no token at 2..3, line 1 column 3",
        ),
        (
            Type,
            b"Map<A, Map<B, C>>",
            "12: expected `>`, found `>>` at 15..17, line 1 column 16",
        ),
        (
            Expr,
            b"a.1",
            "13: expected an identifier, found integer at 2..3, line 1 column 3",
        ),
        (
            Type,
            b"Q<1 of x>",
            "14: expected an integer, found identifier at 7..8, line 1 column 8",
        ),
        (
            Program,
            b"import {1",
            "15: expected an import name, found integer at 8..9, line 1 column 9",
        ),
        (
            Program,
            b"import {a} from b;",
            "16: expected a string, found identifier at 16..17, line 1 column 17",
        ),
        (
            Expr,
            b"a +",
            "17: expected an expression, found end of input at 3..3, line 1 column 4",
        ),
        (
            Type,
            b"@2024-01-01",
            "18: expected a type, found date at 0..11, line 1 column 1",
        ),
        (
            Item,
            b"let",
            "19: expected a contract item, found `let` at 0..3, line 1 column 1",
        ),
        (
            Expr,
            deep.as_bytes(),
            "20: nested deeper than 64 at 64..64, line 1 column 65",
        ),
        (
            Stmt,
            b"a + b = 1;",
            "21: assigned to what is no name and no field at 0..5, line 1 column 1",
        ),
        (
            Expr,
            b"a \"b\"",
            "22: more after the end, found string at 2..5, line 1 column 3",
        ),
    ];
    for (kind, source, words) in rows {
        assert_eq!(refusal(kind, source, &[]), words);
    }
}

// Rows of edition 2: accepted where no words are given.
#[test]
fn edition_2() {
    use Call::{Expr, Item, Type};
    let rows: [(Call, &[u8], &str); 8] = [
        (Type, b"Map<A, Map<B, C>>", ""),
        (Item, b"state{a:A<B<C>>=1;}", ""),
        (Expr, b"@0000-02-29", ""),
        (
            Type,
            b"A<B>>",
            "22: more after the end, found `>` at 4..5, line 1 column 5",
        ),
        (
            Item,
            b"state{a:A<B>>;}",
            "12: expected `;`, found `>` at 12..13, line 1 column 13",
        ),
        (
            Item,
            b"event E(a:A<B>>);",
            "12: expected `)`, found `>` at 14..15, line 1 column 15",
        ),
        (
            Expr,
            b"f(\n@2024-02-30)",
            "28: a date that is no day at 3..14, line 2 column 1",
        ),
        (
            Expr,
            b"00 @2024-02-30",
            "8: a number that starts with 0 at 0..2, line 1 column 1",
        ),
    ];
    for (kind, source, words) in rows {
        let said = match Reading::new(Edition::Two, kind, source, &[]) {
            Ok(_) => String::new(),
            Err(refusal) => refusal.in_source(source).to_string(),
        };
        assert_eq!(said, words, "{}", String::from_utf8_lossy(source));
    }
    assert_eq!(
        refusal_in(Edition::Two, Expr, b"a", b"FW\x01bF"),
        "1: the word table is too long or malformed at 4 of the table"
    );
}

#[test]
fn editions() {
    assert_eq!(Edition::ALL, [Edition::One, Edition::Two]);
    for edition in Edition::ALL {
        assert_eq!(Edition::from_number(edition.number()), Some(*edition));
        assert_eq!(edition.to_string().parse(), Ok(*edition));
        assert_eq!(format!("{edition:>3}"), format!("  {}", edition.number()));
    }
    assert!([0, 3, u32::MAX]
        .iter()
        .all(|number| Edition::from_number(*number).is_none()));
    for text in ["", "0", "3", "01", "+1", " 1", "1 ", "One", "4294967297"] {
        assert!(text.parse::<Edition>().is_err(), "{text}");
    }
}

// The archive's own functions take any number; the safe ones can't be told of an unknown edition.
#[test]
fn unknown_editions() {
    let outcome = raw::Outcome {
        number: 29,
        ..raw::Outcome::default()
    };
    for edition in [0, 3, 257, 1 << 31, u32::MAX] {
        for kind in [
            Call::Program,
            Call::Item,
            Call::Stmt,
            Call::Expr,
            Call::Type,
        ] {
            let (mut tokens, mut tree) = ([7; 8], [7; 13]);
            // It comes before 1.
            let given = raw::read(edition, kind, b"\xFF", b"F", &mut tokens, &mut tree);
            assert_eq!((given, tokens, tree), (outcome, [0; 8], [0; 13]));
        }
    }
    let Answer::Refused(refusal) = Answer::from(outcome) else {
        panic!("29 is a refusal");
    };
    assert_eq!(refusal.reason, Reason::UnknownEdition);
    let said = refusal.in_source(b"a").to_string();
    assert_eq!(said, "29: an edition other than 1 and 2");
}

#[test]
fn refusals_of_tables_and_lengths() {
    assert_eq!(
        refusal(Call::Expr, b"a", b"FW\x01bF"),
        "1: the word table is too long or malformed at 4 of the table"
    );
    let words = word_table(["of"]).unwrap();
    assert_eq!(
        refusal(Call::Expr, b"a + of", &words),
        "6: a word of the word table at 4..6, line 1 column 5"
    );
    let long = vec![b' '; quanta::MAX_SOURCE + 1];
    assert_eq!(
        refusal(Call::Program, &long, &[]),
        "2: the source is longer than 1,048,576 bytes"
    );
}

#[test]
fn refusals_for_room() {
    let said = |tokens: &mut [u32], tree: &mut [u32]| match call(
        Edition::One,
        Call::Expr,
        b"a+b",
        &[],
        tokens,
        tree,
    ) {
        Answer::Refused(refusal) => refusal.to_string(),
        Answer::Accepted { tokens, records } => format!("{tokens} {records}"),
    };
    assert_eq!(
        said(&mut [1; 11], &mut [1; 18]),
        "11: too few token records, 4 needed"
    );
    assert_eq!(
        said(&mut [1; 12], &mut [1; 17]),
        "23: too few tree records, 3 needed"
    );
    assert_eq!(said(&mut [1; 12], &mut [1; 18]), "4 3");
    assert_eq!(
        said(&mut [], &mut []),
        "11: too few token records, 4 needed"
    );
}

#[test]
fn answers_are_the_archive_s_numbers() {
    let outcome = raw::Outcome {
        number: 12,
        start: 15,
        end: 17,
        wanted: 53,
        found: 61,
        ..raw::Outcome::default()
    };
    let refusal = Refusal {
        reason: Reason::ExpectedToken,
        span: Span { start: 15, end: 17 },
        wanted: Some(TokenKind::Gt),
        found: Some(TokenKind::Shr),
        need: 0,
    };
    assert_eq!(Answer::from(outcome), Answer::Refused(refusal));
    let (mut tokens, mut tree) = ([7; 54], [7; 108]);
    let given = raw::read(
        1,
        Call::Type,
        b"Map<A, Map<B, C>>",
        &[],
        &mut tokens,
        &mut tree,
    );
    assert_eq!(given, outcome);
    assert!(tree.iter().all(|word| *word == 0));
    assert_eq!(quanta::tokens(&tokens).count(), 11);
}

#[test]
fn every_call_has_its_function() {
    let calls = [
        (
            quanta::parse as fn(Edition, &[u8], &[u8], &mut [u32], &mut [u32]) -> Answer,
            "contract C { }",
        ),
        (quanta::parse_item, "asset A;"),
        (quanta::parse_stmt, "guard a;"),
        (quanta::parse_expr, "a"),
        (quanta::parse_type, "A<1>"),
    ];
    for (own, (function, _)) in calls.into_iter().enumerate() {
        for (other, (_, source)) in calls.into_iter().enumerate() {
            let mut tokens = vec![0; token_words(source.len())];
            let mut tree = vec![0; tree_words(source.len())];
            for edition in Edition::ALL {
                let answer = function(*edition, source.as_bytes(), &[], &mut tokens, &mut tree);
                let accepted = matches!(answer, Answer::Accepted { .. });
                // A name is an expression and a type.
                assert_eq!(accepted, own == other || (own, other) == (4, 3), "{source}");
            }
        }
    }
}

#[test]
fn buffers_are_read_up_to_their_zeros() {
    let mut token_buffer = vec![9; token_words(3) + 2];
    let mut tree_buffer = vec![9; tree_words(3) + 5];
    let answer = call(
        Edition::One,
        Call::Expr,
        b"a+b",
        &[],
        &mut token_buffer,
        &mut tree_buffer,
    );
    assert_eq!(
        answer,
        Answer::Accepted {
            tokens: 4,
            records: 3
        }
    );
    assert_eq!(tokens(&token_buffer).count(), 4);
    assert_eq!(records(&tree_buffer).count(), 3);
    assert_eq!(tokens(&[]).count(), 0);
    assert_eq!(records(&[27, 0, 0, 0, 1]).count(), 0);
}

#[test]
fn texts_of_tokens() {
    let source = "x(\"第三者\", @2026-01-31, Quorum)".as_bytes();
    let reading = Reading::new(Edition::One, Call::Expr, b"x", &[]).unwrap();
    assert_eq!(reading.source(), b"x");
    let refused = Reading::new(Edition::One, Call::Expr, source, &[]).unwrap_err();
    assert_eq!(refused.found, Some(TokenKind::Quorum));
    let source = &source[..source.len() - 9];
    let source = [source, b")"].concat();
    let reading = Reading::new(Edition::One, Call::Expr, &source, &[]).unwrap();
    let texts: Vec<_> = reading.tokens().map(|token| reading.text(token)).collect();
    let expected: [&[u8]; 7] = [
        b"x",
        b"(",
        "第三者".as_bytes(),
        b",",
        b"2026-01-31",
        b")",
        b"",
    ];
    assert_eq!(texts, expected);
}

// Document 01's cases of an empty text.
#[test]
fn texts_that_are_empty() {
    let text = |kind, start, end| {
        Token {
            kind,
            span: Span { start, end },
        }
        .text(b"\"abc\"")
    };
    assert_eq!(text(TokenKind::Ident, 3, 2), b"");
    assert_eq!(text(TokenKind::Ident, 3, 6), b"");
    assert_eq!(text(TokenKind::Ident, u32::MAX, u32::MAX), b"");
    assert_eq!(text(TokenKind::Str, 0, 1), b"");
    assert_eq!(text(TokenKind::Str, 0, 2), b"");
    assert_eq!(text(TokenKind::Date, 0, 0), b"");
    assert_eq!(text(TokenKind::Date, 1, 2), b"");
    assert_eq!(text(TokenKind::Str, 0, 5), b"abc");
    assert_eq!(text(TokenKind::Date, 0, 5), b"abc\"");
}

// Children found by walking are those that the records' order gives.
#[test]
fn children_of_every_record() {
    let source = include_bytes!("../../../examples/every.quanta");
    let reading = Reading::new(Edition::One, Call::Program, source, &[]).unwrap();
    let mut open: Vec<usize> = Vec::new();
    for (no, record) in reading.records().enumerate() {
        let children = open.split_off(open.len() - record.children as usize);
        assert_eq!(reading.children(no), children);
        assert_eq!(reading.record(no), Some(record));
        assert!(reading.own(record).is_some());
        open.push(no);
    }
    assert_eq!(open, [reading.root()]);
    assert_eq!(reading.children(reading.root() + 1), []);
    assert_eq!(reading.record(reading.root() + 1), None);
    assert_eq!(reading.token(usize::MAX), None);
}

#[test]
fn places() {
    assert_eq!(
        place(b"", 0).map(|place| (place.line, place.column)),
        Some((1, 1))
    );
    assert_eq!(place(b"", 1), None);
    assert_eq!(
        place(b"\r\n\n", 3).map(|place| (place.line, place.column)),
        Some((3, 1))
    );
    assert_eq!(place(b"a", usize::MAX), None);
}

#[test]
fn word_tables() {
    assert_eq!(word_table([]), Some(Vec::new()));
    assert_eq!(word_table([""]), None);
    assert_eq!(word_table(["ö"]), None);
    assert_eq!(word_table(["_"]).unwrap(), b"FW\x01_");
    let long = "w".repeat(256);
    assert_eq!(word_table([long.as_str()]), None);
    assert!(word_table([&long[1..]]).is_some());
    assert_eq!(
        word_table(vec!["a"; 16_384]).map(|table| table.len()),
        Some(65_536)
    );
    assert_eq!(word_table(vec!["a"; 16_385]), None);
}
