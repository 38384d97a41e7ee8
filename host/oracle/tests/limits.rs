//! The adapter's own refusals: 1, 2, 3, 11 and 23, and what they leave in the buffers.

mod common;

use common::lines;
use oracle::table::{self, MAX_TABLE};
use oracle::{Call, Case, MAX_SOURCE};

fn refused(case: &Case) -> String {
    let outcome = oracle::read(case);
    assert!(outcome.tree.iter().all(|word| *word == 0));
    lines(&outcome, true)
}

fn with_table(table: &[u8]) -> Case {
    Case::ample(Call::Expr, b"a".to_vec(), table.to_vec())
}

// A table of words of 255 bytes and one that fills it up to the greatest length.
fn longest_table() -> Vec<u8> {
    let word = "w".repeat(255);
    let mut table = table::encode(vec![word.as_str(); MAX_TABLE / 258]);
    let rest = MAX_TABLE - table.len() - 3;
    table.extend(table::encode([&word[..rest]]));
    table
}

#[test]
fn tables() {
    let rows: [(&[u8], u32); 10] = [
        (b"F", 0),
        (b"FW", 0),
        (b"FW\0", 0),
        (b"FX\x01a", 0),
        (b"FW\x02a", 0),
        (b"FW\x011", 0),
        (b"FW\x02a-", 0),
        (b"FW\x01aFW\x02\xC3\xA4", 4),
        (b"FW\x01aFW\x02b_ ", 9),
        (b"FW\x01bFW\x01bG", 8),
    ];
    for (table, at) in rows {
        assert_eq!(
            refused(&with_table(table)),
            format!("R 1 {at} {at} 0 0 0\n"),
            "{table:?}"
        );
    }
    assert!(table::words(b"FW\x01bFW\x01b").is_ok_and(|words| words.len() == 1));
}

#[test]
fn longest_tables() {
    let mut table = longest_table();
    assert_eq!(table.len(), MAX_TABLE);
    assert!(lines(&oracle::read(&with_table(&table)), false).starts_with("A 2 1\n"));
    table.push(0);
    assert_eq!(refused(&with_table(&table)), "R 1 65536 65536 0 0 0\n");
    // Too long comes before a bad record.
    table[0] = 0;
    assert_eq!(refused(&with_table(&table)), "R 1 65536 65536 0 0 0\n");
}

#[test]
fn longest_sources() {
    let mut source = vec![b' '; MAX_SOURCE];
    let case = Case::ample(Call::Program, source.clone(), Vec::new());
    let lines = lines(&oracle::read(&case), false);
    assert_eq!(lines, "A 1 1\nN 1 0 0 1048576 1048576 0\n");
    source.push(0xFF);
    let long = Case::ample(Call::Program, source, Vec::new());
    assert_eq!(refused(&long), "R 2 1048576 1048576 0 0 0\n");
}

#[test]
fn bytes_that_are_no_utf8() {
    let rows: [(&[u8], u32); 6] = [
        (b"\x80", 0),
        (b"a\xC3", 1),
        (b"\xC3\xA4\xE2\x82", 2),
        (b"\"\xED\xA0\x80\"", 1),
        (b"\xF4\x90\x80\x80", 0),
        (b"\r\xC0\x80", 1),
    ];
    for (source, at) in rows {
        let case = Case::ample(Call::Expr, source.to_vec(), Vec::new());
        assert_eq!(
            refused(&case),
            format!("R 3 {at} {} 0 0 0\n", at + 1),
            "{source:?}"
        );
    }
}

#[test]
fn rooms() {
    let mut case = Case::ample(Call::Expr, b"a+b".to_vec(), Vec::new());
    let tokens = "T 1 0 1\nT 47 1 2\nT 1 2 3\nT 62 3 3\n";
    (case.token_words, case.tree_words) = (11, 0);
    assert_eq!(refused(&case), "R 11 0 0 0 0 4\n");
    case.token_words = 12;
    assert_eq!(refused(&case), format!("R 23 0 0 0 0 3\n{tokens}"));
    case.tree_words = 17;
    assert_eq!(refused(&case), format!("R 23 0 0 0 0 3\n{tokens}"));
    case.tree_words = 18;
    let tree = "N 27 0 0 0 1 0\nN 27 0 2 2 3 0\nN 38 8 1 0 3 2\n";
    assert_eq!(
        lines(&oracle::read(&case), true),
        format!("A 4 3\n{tokens}{tree}")
    );
}

#[test]
fn parse_refusals_keep_the_tokens() {
    let mut case = Case::ample(Call::Expr, b"a+".to_vec(), Vec::new());
    case.tree_words = 0;
    assert_eq!(
        refused(&case),
        "R 17 2 2 0 62 0\nT 1 0 1\nT 47 1 2\nT 62 2 2\n"
    );
}
