//! The program `oracle`: its output and its exit codes.

use std::io::Write;
use std::process::{Command, Output, Stdio};

fn run(args: &[&str], input: &[u8]) -> Output {
    let mut child = Command::new(env!("CARGO_BIN_EXE_oracle"))
        .args(args)
        .stdin(Stdio::piped())
        .stdout(Stdio::piped())
        .stderr(Stdio::piped())
        .spawn()
        .unwrap();
    // A program that refuses its usage may have closed its input.
    let _ = child.stdin.take().unwrap().write_all(input);
    child.wait_with_output().unwrap()
}

fn printed(args: &[&str], input: &[u8]) -> String {
    let output = run(args, input);
    assert!(output.status.success(), "{output:?}");
    String::from_utf8(output.stdout).unwrap()
}

#[test]
fn dumps() {
    let lines = "A 5 3\nN 27 0 1 9 10 0\nN 3 0 0 0 14 1\nN 1 0 4 0 14 1\n";
    assert_eq!(printed(&["-"], b"contract C { }"), lines);
    let expr = ["--call", "expr", "-"];
    assert_eq!(printed(&expr, b"msg"), "A 2 1\nN 27 0 0 0 3 0\n");
    let with_table = [&expr[..], &["--table", "rust"]].concat();
    assert_eq!(printed(&with_table, b"msg"), "R 6 0 3 0 0 0\n");
    let with_tokens = [&expr[..], &["--tokens"]].concat();
    assert_eq!(
        printed(&with_tokens, b"1"),
        "A 2 1\nT 2 0 1\nT 62 1 1\nN 28 0 0 0 1 0\n"
    );
    let edition = |edition| {
        printed(
            &["--edition", edition, "--call", "expr", "-"],
            b"@2024-02-30",
        )
    };
    assert_eq!(edition("1"), "A 2 1\nN 29 0 0 0 11 0\n");
    assert_eq!(edition("2"), "R 28 0 11 0 0 0\n");
    assert_eq!(edition("3"), "R 29 0 0 0 0 0\n");
}

#[test]
fn streams() {
    let cases = b"C expr 1 0 6 6\n1\nC expr 1 0 5 6\n1\n";
    assert_eq!(
        printed(&["--stream"], cases),
        "A 2 1\n.\nR 11 0 0 0 0 2\n.\n"
    );
    let whole = "A 2 1\nT 2 0 1\nT 62 1 1\nN 28 0 0 0 1 0\nZ 0 0\n.\nR 11 0 0 0 0 2\nZ 0 0\n.\n";
    assert_eq!(printed(&["--stream", "--full"], cases), whole);
    let editions = b"C 2 type 7 0 24 48\nA<B<C>>\nC type 7 0 24 48\nA<B<C>>\nC 0 expr 1 0 6 6\n1\n";
    assert_eq!(
        printed(&["--stream"], editions),
        "A 7 3\n.\nR 12 5 7 53 61 0\n.\nR 29 0 0 0 0 0\n.\n"
    );
}

#[test]
fn bad_usage() {
    let rows: [&[&str]; 9] = [
        &[],
        &["-", "--edition", "two"],
        &["-", "--edition", "4294967296"],
        &["--what", "-"],
        &["-", "-"],
        &["-", "--call"],
        &["-", "--call", "word"],
        &["no such file"],
        &["--stream", "-"],
    ];
    for args in rows {
        let output = run(args, b"");
        assert_eq!(output.status.code(), Some(2), "{args:?}");
        assert!(output.stderr.starts_with(b"error: "), "{args:?}");
    }
    let bad_frame = run(&["--stream"], b"C expr 1 0 6 6\n1\nwhat\n");
    assert_eq!(bad_frame.status.code(), Some(2));
    assert!(bad_frame
        .stderr
        .starts_with(b"error: bad frame at byte 17: "));
}
