//! The program `quanta`: what it prints and its exit codes.

use std::path::Path;
use std::process::{Command, Output};

const EXAMPLES: &str = concat!(env!("CARGO_MANIFEST_DIR"), "/../../examples/");

fn output(args: &[&str]) -> Output {
    let mut quanta = Command::new(env!("CARGO_BIN_EXE_quanta"));
    quanta.args(args).output().unwrap()
}

fn run(args: &[&str]) -> (Option<i32>, String) {
    let output = output(args);
    (
        output.status.code(),
        String::from_utf8(output.stdout).unwrap(),
    )
}

// A file with this text.
fn file(name: &str, text: &str) -> String {
    let path = Path::new(env!("CARGO_TARGET_TMPDIR")).join(name);
    std::fs::write(&path, text).unwrap();
    path.display().to_string()
}

#[test]
fn an_example_is_shown() {
    let (code, said) = run(&[&format!("{EXAMPLES}escrow.quanta")]);
    assert_eq!(code, Some(0));
    let front = "accepted: 227 tokens, 156 records\nprogram 75..1150\n  import 75..116\n    name 84..89 `Clock`\n";
    assert!(said.starts_with(front), "{said}");
    assert_eq!(said.lines().count(), 157);
}

#[test]
fn a_refusal_is_shown() {
    let (code, said) = run(&[&format!("{EXAMPLES}escrow.quanta"), "item"]);
    assert_eq!(code, Some(1));
    assert_eq!(
        said,
        "refused, 19: expected a contract item, found `import` at 75..81, line 2 column 1\n"
    );
}

#[test]
fn bad_usage() {
    let rows: [&[&str]; 4] = [&[], &["no such file"], &["a", "what"], &["a", "expr", "b"]];
    for args in rows {
        assert_eq!(run(args).0, Some(2), "{args:?}");
    }
}

// Edition 1 is the default, and says of a `>>` where a type list must close what edition 2 makes of it.
#[test]
fn closers_by_edition() {
    let path = file("closers", "Map<A, Set<B>>");
    let refused = "refused, 12: expected `>`, found `>>` at 12..14, line 1 column 13\n\
        edition 2 (--edition 2) reads this `>>` as two closers\n";
    for args in [
        &[path.as_str(), "type"][..],
        &[&path, "type", "--edition", "1"],
        &["--edition", "1", &path, "type"],
    ] {
        assert_eq!(run(args), (Some(1), refused.to_string()), "{args:?}");
    }
    let accepted = "accepted: 9 tokens, 4 records\ntype 0..14 `Map`\n  type 4..5 `A`\n  type 7..13 `Set`\n    type 11..12 `B`\n";
    for args in [
        &[path.as_str(), "type", "--edition", "2"][..],
        &[&path, "--edition", "2", "type"],
        &["--edition", "2", &path, "type"],
    ] {
        assert_eq!(run(args), (Some(0), accepted.to_string()), "{args:?}");
    }
    // Of other refusals nothing is added, and in edition 2 of none.
    let rows = [
        (
            "type",
            "1",
            "A>>",
            "refused, 22: more after the end, found `>>` at 1..3, line 1 column 2\n",
        ),
        (
            "type",
            "1",
            "A<B 1>>",
            "refused, 12: expected `>`, found integer at 4..5, line 1 column 5\n",
        ),
        (
            "type",
            "2",
            "A<B>>",
            "refused, 22: more after the end, found `>` at 4..5, line 1 column 5\n",
        ),
    ];
    for (call, edition, text, said) in rows {
        let path = file("refused", text);
        let got = run(&[&path, call, "--edition", edition]);
        assert_eq!(got, (Some(1), said.to_string()), "{text}");
    }
}

#[test]
fn dates_by_edition() {
    let path = file("date", "@2026-02-29");
    let shown = "accepted: 2 tokens, 1 records\ndate 0..11 `2026-02-29`\n";
    assert_eq!(run(&[&path, "expr"]), (Some(0), shown.to_string()));
    let refused = "refused, 28: a date that is no day at 0..11, line 1 column 1\n";
    let got = run(&[&path, "expr", "--edition", "2"]);
    assert_eq!(got, (Some(1), refused.to_string()));
}

#[test]
fn both_editions_read_the_examples() {
    for name in ["escrow", "every"] {
        let path = format!("{EXAMPLES}{name}.quanta");
        let both = ["1", "2"].map(|edition| run(&[&path, "--edition", edition]));
        assert_eq!(both[0].0, Some(0));
        assert_eq!(both[0], both[1], "{name}");
    }
}

#[test]
fn a_filing_by_edition_2() {
    let path = format!("{EXAMPLES}closers.quanta");
    assert_eq!(run(&[&path, "--edition", "2"]).0, Some(0));
    let (code, said) = run(&[&path]);
    assert_eq!(code, Some(1));
    assert!(said.ends_with("edition 2 (--edition 2) reads this `>>` as two closers\n"));
}

#[test]
fn unknown_editions() {
    let path = format!("{EXAMPLES}escrow.quanta");
    for edition in ["0", "3", "two", "", "4294967297"] {
        let output = output(&[&path, "--edition", edition]);
        assert_eq!(output.status.code(), Some(2), "{edition}");
        let said = format!("--edition {edition}: an edition is 1 or 2\nsee --help\n");
        assert_eq!(String::from_utf8_lossy(&output.stderr), said);
        assert!(output.stdout.is_empty());
    }
    let none = output(&[&path, "--edition"]);
    assert_eq!(none.status.code(), Some(2));
    assert!(none.stderr.starts_with(b"--edition needs 1 or 2\n"));
    let twice = [&path, "--edition", "1", "--edition", "2"];
    assert_eq!(run(&twice).0, Some(2));
}

#[test]
fn the_help_tells_the_default() {
    let (code, said) = run(&["--help"]);
    assert_eq!(code, Some(0));
    assert!(said.contains("--edition N   the edition of the reading rules: 1 (default), or 2"));
}
