//! Reads a source with the proved reader and shows its records in words.

use quanta::{Call, Edition, Reading, Reason, Record, Refusal, TokenKind};
use std::io::Write;
use std::process::ExitCode;

const HELP: &str = "\
quanta: reads a Quanta contract with the proved reader

usage: quanta FILE [CALL] [--edition N]

FILE          the source
CALL          program (default), item, stmt, expr or type
--edition N   the edition of the reading rules: 1 (default), or 2, in which a `>>` may close two type lists
              and a date must be a day

Prints the tree, a line for each record: its kind, its span, the text of its own token where the kind does
not say it, and its flag if it has one. Where the source is refused, the refusal with line and column.
Exit code: 0 accepted, 1 refused, 2 on bad usage.
";

fn main() -> ExitCode {
    let args: Vec<String> = std::env::args().skip(1).collect();
    let mut args: Vec<&str> = args.iter().map(String::as_str).collect();
    let edition = match take_edition(&mut args) {
        Ok(edition) => edition,
        Err(message) => {
            eprintln!("{message}\nsee --help");
            return ExitCode::from(2);
        }
    };
    let (path, call) = match args[..] {
        ["--help"] => {
            print!("{HELP}");
            return ExitCode::SUCCESS;
        }
        [path] => (path, Some(Call::Program)),
        [path, call] => (path, call_of(call)),
        _ => ("", None),
    };
    let Some(call) = call else {
        eprint!("{HELP}");
        return ExitCode::from(2);
    };
    let source = match std::fs::read(path) {
        Ok(source) => source,
        Err(error) => {
            eprintln!("cannot read {path}: {error}");
            return ExitCode::from(2);
        }
    };
    match Reading::new(edition, call, &source, &[]) {
        Ok(reading) => {
            // A reader that has seen enough may close the pipe.
            let _ = std::io::stdout().write_all(shown(&reading).as_bytes());
            ExitCode::SUCCESS
        }
        Err(refusal) => {
            println!("refused, {}", refusal.in_source(&source));
            if edition == Edition::One && is_two_closers(&refusal) {
                println!("edition 2 (--edition 2) reads this `>>` as two closers");
            }
            ExitCode::from(1)
        }
    }
}

// Takes the option from the arguments.
fn take_edition(args: &mut Vec<&str>) -> Result<Edition, String> {
    let Some(place) = args.iter().position(|arg| *arg == "--edition") else {
        return Ok(Edition::One);
    };
    let value = *args.get(place + 1).ok_or("--edition needs 1 or 2")?;
    args.drain(place..place + 2);
    let edition = value.parse();
    edition.map_err(|error| format!("--edition {value}: {error}"))
}

// Whether a `>>` stands where a type list must close.
fn is_two_closers(refusal: &Refusal) -> bool {
    let Refusal {
        reason,
        wanted,
        found,
        ..
    } = *refusal;
    let (closer, pair) = (Some(TokenKind::Gt), Some(TokenKind::Shr));
    (reason, wanted, found) == (Reason::ExpectedToken, closer, pair)
}

fn call_of(name: &str) -> Option<Call> {
    match name {
        "program" => Some(Call::Program),
        "item" => Some(Call::Item),
        "stmt" => Some(Call::Stmt),
        "expr" => Some(Call::Expr),
        "type" => Some(Call::Type),
        _ => None,
    }
}

fn shown(reading: &Reading) -> String {
    let (tokens, records) = (reading.tokens().count(), reading.records().count());
    let mut out = format!("accepted: {tokens} tokens, {records} records\n");
    // A parent stands behind its children, so the tree is walked from its root.
    let mut open = vec![(reading.root(), 0)];
    while let Some((no, depth)) = open.pop() {
        let record = reading.record(no).expect("the tree names its own records");
        out += &line(reading, record, depth);
        let children = reading.children(no).into_iter().rev();
        open.extend(children.map(|child| (child, depth + 1)));
    }
    out
}

fn line(reading: &Reading, record: Record, depth: usize) -> String {
    let own = reading.own(record).expect("an own token is a token");
    let indent = "  ".repeat(depth);
    let mut line = format!("{indent}{} {}", record.node, record.span);
    let text = String::from_utf8_lossy(reading.text(own));
    if !text.is_empty() && text != record.node.name() {
        line += &format!(" `{text}`");
    }
    if record.flag != 0 {
        line += &format!(" flag {}", record.flag);
    }
    line + "\n"
}
