use compare::{reader, Pair};
use oracle::args::{self, Args};
use oracle::frame::Frames;
use oracle::Case;
use std::fs::File;
use std::io::BufReader;
use std::process::ExitCode;

const USAGE: &str = "\
compare: feeds the same cases to two readers and compares their whole answers

usage: compare LEFT RIGHT --seed N --count N [--kind KIND] [--size N]
       compare LEFT RIGHT --kind scalars | tokens | edits | nesting | edges | closers | days
       compare LEFT RIGHT --exhaustive LEN [--alphabet STR] [--call CALL]
       compare LEFT RIGHT --stream FILE

LEFT, RIGHT       readers:
                  oracle         the original; in edition 2 what is made of its answers
                  lexical        the original as far as the tokens: refusals 1 to 11, or
                                 `A tokens 0`, and the token buffer; always in edition 1
                  proved         the five proved calls
                  proved-lexer   the proved crates as far as the tokens; always in edition 1
                  cmd:PROGRAM ARGS   a program that takes framed cases on standard input
                                 and writes the whole answer to each at once
--stream FILE     the cases of a file with framed cases, in their own editions
";
const REST: &str = "\
The first disagreements are shown whole, then the first one made smaller.
The last line is `N cases, D disagreements`.
Exit code: 0 if all agree, 1 if not, 2 on bad usage or a reader that fails.
";

type Cases = Box<dyn Iterator<Item = Result<Case, String>>>;

fn main() -> ExitCode {
    let help = [USAGE, cases::choice::HELP, REST].concat();
    args::run(&help, |mut args| {
        let cases = chosen(&mut args)?;
        let [left, right] = args.operands()?;
        let mut pair = Pair {
            left: reader(&left)?,
            right: reader(&right)?,
        };
        let count = pair.compare(cases, &mut std::io::stdout())?;
        println!("{count}");
        Ok(ExitCode::from(u8::from(count.disagreements > 0)))
    })
}

fn chosen(args: &mut Args) -> Result<Cases, String> {
    if let Some(path) = args.value("--stream")? {
        let file = File::open(&path).map_err(|error| format!("cannot read {path}: {error}"))?;
        let mut frames = Frames::new(BufReader::new(file));
        return Ok(Box::new(std::iter::from_fn(move || {
            frames.next_case().transpose()
        })));
    }
    let cases = cases::choice::chosen(args)?.ok_or(
        "--seed and --count, a --kind that is a whole list, --exhaustive or --stream is needed",
    )?;
    Ok(Box::new(cases.map(Ok)))
}
