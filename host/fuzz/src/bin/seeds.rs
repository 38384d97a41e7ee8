//! Writes first inputs for the fuzzer into a folder: the stored list of cases and the parts of a program of every production.

use cases::{edits, stored};
use oracle::Call;
use std::path::Path;
use std::process::ExitCode;

fn main() -> ExitCode {
    let Some(folder) = std::env::args().nth(1) else {
        eprintln!("usage: seeds FOLDER");
        return ExitCode::from(2);
    };
    match write(Path::new(&folder)) {
        Ok(count) => {
            println!("{count} inputs");
            ExitCode::SUCCESS
        }
        Err(error) => {
            eprintln!("cannot write to {folder}: {error}");
            ExitCode::from(2)
        }
    }
}

fn write(folder: &Path) -> std::io::Result<usize> {
    let parts = Call::ALL.into_iter().flat_map(|call| {
        let texts = edits::parts(call).into_iter();
        let in_both = texts.flat_map(move |tokens| {
            let text = tokens.join(" ");
            [(1, text.clone()), (2, text.replace("> >", ">>"))]
        });
        in_both.filter_map(move |(edition, text)| fuzz::input(edition, call, text.as_bytes(), &[]))
    });
    let stored = stored::chosen().into_iter().flat_map(|(case, _)| {
        let input = |edition| fuzz::input(edition, case.call, &case.source, &case.words);
        [input(1), input(2)]
    });
    let stored = stored.flatten();
    let mut count = 0;
    for input in parts.chain(stored) {
        std::fs::write(folder.join(format!("seed-{count:04}")), input)?;
        count += 1;
    }
    Ok(count)
}
