use cases::{choice, readings, stored};
use oracle::args::{self, Args};
use oracle::frame;
use std::io::{BufWriter, Write};
use std::process::ExitCode;

const USAGE: &str = "\
cases: writes a stream of framed cases for the readers

usage: cases --seed N --count N [--kind KIND] [--size N]
       cases --kind scalars | tokens | edits | nesting | edges | closers | days
       cases --exhaustive LEN [--alphabet STR] [--call CALL]
       cases --stored
       cases --readings

";
const REST: &str = "\
--stored          the list oracle/tests/answers.frames: cases, each followed by its answer
--readings        the list of readings that the program `readings` replays, a line for each
Exit code: 0, or 2 on bad usage.
";

fn main() -> ExitCode {
    let help = [USAGE, choice::HELP, REST].concat();
    args::run(&help, |args| {
        write_cases(args)?;
        Ok(ExitCode::SUCCESS)
    })
}

fn write_cases(mut args: Args) -> Result<(), String> {
    let mut out = BufWriter::new(std::io::stdout().lock());
    if args.flag("--stored") {
        let [] = args.operands()?;
        return done(out.write_all(&stored::list()).and_then(|()| out.flush()));
    }
    if args.flag("--readings") {
        let [] = args.operands()?;
        let list = readings::list();
        return done(out.write_all(list.as_bytes()).and_then(|()| out.flush()));
    }
    let chosen = choice::chosen(&mut args)?.ok_or(
        "--seed and --count, a --kind that is a whole list, --exhaustive, --stored or --readings is needed",
    )?;
    let [] = args.operands()?;
    for case in chosen {
        done(frame::write_case(&case, &mut out))?;
    }
    done(out.flush())
}

fn done(written: std::io::Result<()>) -> Result<(), String> {
    written.map_err(|error| format!("cannot write the cases: {error}"))
}
