use oracle::args::{self, Args};
use oracle::frame::{self, Frames};
use oracle::{table, Call, Case};
use std::io::{Read, Write};
use std::process::ExitCode;

const HELP: &str = "\
oracle: answers of the original Rust reader in the terms of documents 01 and 02

usage: oracle FILE [--call CALL] [--edition N] [--tokens] [--table TABLE]
       oracle --stream [--full]

FILE            the source; `-` is standard input
--call CALL     program (default), item, stmt, expr or type
--edition N     the edition of the reading rules: 1 (default), the original's own, or 2; any other is refused
--tokens        print the tokens too
--table TABLE   the word table: none (default), rust (the original's own list) or a file
--stream        read framed cases from standard input, write an answer for each
--full          with --stream: whole answers; without it an answer is its first line and `.`

Prints, with room enough, `A tokens records`, a line `T kind start end` for each
token if asked for, and a line `N kind flag own start end children` for each
record; or `R number start end wanted found need`.
Exit code: 0 for an answer of either kind, 2 on bad usage or input.
";

fn main() -> ExitCode {
    args::run(HELP, |mut args| {
        if args.flag("--stream") {
            stream(args)?;
        } else {
            dump(args)?;
        }
        Ok(ExitCode::SUCCESS)
    })
}

fn dump(mut args: Args) -> Result<(), String> {
    let call = args.value("--call")?.unwrap_or("program".to_string());
    let call = Call::from_name(&call).ok_or(format!("unknown call {call}"))?;
    let edition = args.edition()?.unwrap_or(1);
    let with_tokens = args.flag("--tokens");
    let words = match args.value("--table")?.as_deref() {
        None | Some("none") => Vec::new(),
        Some("rust") => table::original(),
        Some(path) => read_file(path)?,
    };
    let [path] = args.operands()?;
    let case = Case::ample(call, read_file(&path)?, words).in_edition(edition);
    let outcome = oracle::read(&case);
    let mut out = Vec::new();
    frame::write_verdict(&outcome.answer, &mut out);
    if with_tokens {
        frame::write_tokens(&outcome.tokens, &mut out);
    }
    frame::write_tree(&outcome.tree, &mut out);
    write_out(&out)
}

fn stream(mut args: Args) -> Result<(), String> {
    let full = args.flag("--full");
    let [] = args.operands()?;
    let mut frames = Frames::new(std::io::stdin().lock());
    let mut out = Vec::new();
    while let Some(case) = frames.next_case()? {
        let outcome = oracle::read(&case);
        out.clear();
        if full {
            frame::write_answer(&outcome, &mut out);
        } else {
            frame::write_verdict(&outcome.answer, &mut out);
            out.extend_from_slice(b".\n");
        }
        write_out(&out)?;
    }
    Ok(())
}

fn read_file(path: &str) -> Result<Vec<u8>, String> {
    let mut bytes = Vec::new();
    let read = if path == "-" {
        std::io::stdin().read_to_end(&mut bytes).map(|_| bytes)
    } else {
        std::fs::read(path)
    };
    read.map_err(|error| format!("cannot read {path}: {error}"))
}

// Flushed at once, since the other end may wait for this answer before it sends a further case.
fn write_out(bytes: &[u8]) -> Result<(), String> {
    let mut out = std::io::stdout().lock();
    let written = out.write_all(bytes).and_then(|()| out.flush());
    written.map_err(|error| format!("cannot write the answer: {error}"))
}
