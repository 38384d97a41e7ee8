//! The header and the archive from C and C++, by the machine's own compilers.

use quanta::Reason;
use std::path::{Path, PathBuf};
use std::process::{Command, Output};

const WARNINGS: [&str; 4] = ["-Wall", "-Wextra", "-pedantic", "-Werror"];

fn folder() -> &'static Path {
    Path::new(env!("CARGO_MANIFEST_DIR"))
}

// Compiles a file of tests/c and links the archive; gives the program's path.
fn compiled(compiler: &str, standard: &str, file: &str) -> PathBuf {
    let out = Path::new(env!("CARGO_TARGET_TMPDIR")).join(format!("{file}-{standard}"));
    let output = Command::new(compiler)
        .arg(format!("-std={standard}"))
        .args(WARNINGS)
        .arg("-I")
        .arg(folder().join("../../include"))
        .arg(folder().join("tests/c").join(file))
        .arg(env!("QUANTA_ARCHIVE"))
        .arg("-o")
        .arg(&out)
        .output()
        .unwrap_or_else(|error| panic!("{compiler} does not start: {error}"));
    let said = String::from_utf8_lossy(&output.stderr);
    assert!(output.status.success(), "{compiler} {file}:\n{said}");
    out
}

fn run(program: &Path, args: &[&Path]) -> Output {
    Command::new(program).args(args).output().unwrap()
}

#[test]
fn rows_hold_in_c() {
    let output = run(&compiled("cc", "c99", "readings.c"), &[]);
    let said = String::from_utf8_lossy(&output.stdout);
    assert!(output.status.success(), "{said}");
    assert_eq!(said, "26 rows hold\n");
}

#[test]
fn a_contract_is_read_in_c() {
    let contract = folder().join("../../examples/escrow.quanta");
    let output = run(&compiled("cc", "c11", "readings.c"), &[&contract]);
    let said = String::from_utf8(output.stdout).unwrap();
    assert!(said.starts_with("A 227 156\nN 27 0 2 "), "{said}");
    assert_eq!(said.lines().count(), 157);
    assert!(said.lines().last().unwrap().starts_with("N 1 0 226 "));
}

// The most that a call may take of the stack, in bytes: docs/PERFORMANCE.md has what it takes. A word table of more than
// 8,192 bytes has an index of 32 KiB.
const DEEPEST: usize = if cfg!(feature = "terminal") {
    16 * 1024
} else {
    128 * 1024
};
const LONG_TABLE: usize = 44 * 1024;

#[test]
fn calls_keep_to_little_stack() {
    let output = run(&compiled("cc", "gnu11", "stack.c"), &[]);
    let said = String::from_utf8(output.stdout).unwrap();
    assert_eq!(said.lines().count(), 19, "{said}");
    for line in said.lines() {
        let fields: Vec<&str> = line.split(' ').collect();
        let deepest = match fields[0] {
            "table-of-8200-bytes" | "table-of-65536-bytes" | "table-of-65536-bytes-in-no-order" => {
                LONG_TABLE
            }
            _ => DEEPEST,
        };
        assert!(fields[2].parse::<usize>().unwrap() <= deepest, "{line}");
        let too_deep = ["64-parentheses", "65-types", "66-types-by-two-closers"];
        let refused = too_deep.contains(&fields[0]);
        assert_eq!(fields[1], if refused { "20" } else { "0" }, "{line}");
    }
}

// The bytes of stack behind a name.
fn taken(said: &str, name: &str) -> usize {
    let line = said.lines().find(|line| line.split(' ').next() == Some(name));
    line.unwrap().split(' ').nth(2).unwrap().parse().unwrap()
}

// The sort alone makes the difference: it is a leaf, and writes a few words below the frame that calls it.
#[test]
fn a_table_takes_the_same_stack_in_any_order() {
    let output = run(&compiled("cc", "gnu17", "stack.c"), &[]);
    let said = String::from_utf8(output.stdout).unwrap();
    for table in ["table-of-8192-bytes", "table-of-65536-bytes"] {
        let in_order = taken(&said, table);
        let in_none = taken(&said, &format!("{table}-in-no-order"));
        assert!(in_none <= in_order + 128, "{said}");
    }
}

#[test]
fn the_header_is_cpp_too() {
    let output = run(&compiled("c++", "c++11", "header.cpp"), &[]);
    assert!(output.status.success());
}

// `BadTable` is QUANTA_BAD_TABLE there.
#[test]
fn the_header_names_every_number() {
    let header = include_str!("../../../include/quanta.h");
    for reason in Reason::ALL {
        let mut name = "QUANTA".to_string();
        for letter in format!("{reason:?}").chars() {
            if letter.is_ascii_uppercase() {
                name.push('_');
            }
            name.push(letter.to_ascii_uppercase());
        }
        let line = format!(" {name} = {}", reason.number());
        let there = header
            .lines()
            .any(|known| known.trim_end_matches(',').ends_with(&line));
        assert!(there, "no{line}");
    }
}
