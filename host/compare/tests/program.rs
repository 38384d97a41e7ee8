//! The program `compare`: its last line and its exit codes.

use std::process::Command;

fn run(args: &[&str]) -> (Option<i32>, String) {
    let output = Command::new(env!("CARGO_BIN_EXE_compare"))
        .args(args)
        .output()
        .unwrap();
    (
        output.status.code(),
        String::from_utf8(output.stdout).unwrap(),
    )
}

#[test]
fn agreement() {
    let all = run(&[
        "oracle", "oracle", "--seed", "1", "--count", "20", "--kind", "bytes",
    ]);
    assert_eq!(all, (Some(0), "20 cases, 0 disagreements\n".to_string()));
    let strings = run(&[
        "oracle",
        "oracle",
        "--exhaustive",
        "2",
        "--alphabet",
        "a.",
        "--call",
        "type",
    ]);
    assert_eq!(strings, (Some(0), "7 cases, 0 disagreements\n".to_string()));
}

// `yes .` answers everything by an empty answer.
#[test]
fn disagreement() {
    let (code, out) = run(&[
        "oracle",
        "cmd:yes .",
        "--exhaustive",
        "1",
        "--alphabet",
        "a",
    ]);
    assert_eq!(code, Some(1));
    assert!(
        out.ends_with("right:\n.\n2 cases, 2 disagreements\n"),
        "{out}"
    );
}

// `true` ends at once, `cat` answers by the case.
#[test]
fn bad_usage_and_bad_readers() {
    let rows: [&[&str]; 7] = [
        &["oracle", "oracle"],
        &["oracle", "--seed", "1", "--count", "1"],
        &["oracle", "oracle", "--seed", "1"],
        &[
            "oracle", "oracle", "--seed", "1", "--count", "1", "--kind", "what",
        ],
        &["oracle", "oracle", "--stream", "no such file"],
        &["oracle", "cmd:true", "--seed", "1", "--count", "1"],
        &["oracle", "cmd:cat", "--seed", "1", "--count", "1"],
    ];
    for args in rows {
        assert_eq!(run(args).0, Some(2), "{args:?}");
    }
}
