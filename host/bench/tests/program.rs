//! The program `bench`: one call and bad usage. What it measures is no matter of tests.

use std::process::Command;

fn code(args: &[&str]) -> Option<i32> {
    let mut bench = Command::new(env!("CARGO_BIN_EXE_bench"));
    bench.args(args).output().unwrap().status.code()
}

#[test]
fn single_calls() {
    for side in ["original", "proved-full", "proved-tight", "proved-none"] {
        assert_eq!(
            code(&["count", "lexer", "comments", side]),
            Some(0),
            "{side}"
        );
    }
    for (what, side) in [
        ("calls", "original"),
        ("calls", "proved-full"),
        ("calls", "proved-tight"),
        ("tokens", "proved-tight"),
    ] {
        let args = ["count", what, "4-KiB", side];
        assert_eq!(code(&args), Some(0), "{args:?}");
    }
    for text in ["4-KiB", "closers", "deepest", "dates"] {
        for side in ["original", "proved-full", "proved-tight"] {
            let args = ["count", "calls", text, side, "--edition", "2"];
            assert_eq!(code(&args), Some(0), "{args:?}");
        }
    }
    let stopped = [
        "count",
        "lexer",
        "comments",
        "proved-none",
        "--stop",
        "utf8",
    ];
    assert_eq!(code(&stopped), Some(0));
}

#[test]
fn bad_usage() {
    let rows: [&[&str]; 11] = [
        &[],
        &["parser"],
        &["count", "calls", "4-KiB", "original", "--edition", "3"],
        &["count", "calls", "closers", "original"],
        &["calls", "--rounds", "0"],
        &["count", "calls", "cjk", "original"],
        &["count", "parser", "typical", "original"],
        &["lexer", "--rounds", "0"],
        &["count", "lexer", "typical"],
        &["count", "lexer", "nothing", "original"],
        &["count", "lexer", "blanks", "original", "--stop", "here"],
    ];
    for args in rows {
        assert_eq!(code(args), Some(2), "{args:?}");
    }
}
