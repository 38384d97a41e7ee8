mod count;
mod sides;
mod texts;
mod time;
mod typical;

use oracle::args;
use quanta::Edition;
use std::process::ExitCode;

const HELP: &str = "\
bench: the speed of the proved reader beside the original's

usage: bench lexer [--rounds N]
       bench calls [--rounds N] [--edition N]
       bench callgrind lexer
       bench callgrind calls [--edition N]
       bench count lexer TEXT SIDE [--stop PASS]
       bench count calls TEXT SIDE [--edition N]
       bench count tokens TEXT SIDE [--edition N]

lexer            MB/s of reading tokens on texts of 1 MiB with the original's word list, both sides in
                 turns in one run; then on words against tables that cost the most
calls            MB/s of the five calls on texts of 1 MiB, likewise; then what the parsing alone takes (a
                 call less its reading of the tokens), and programs from 1 KiB to 1 MiB
--rounds N       the number of rounds (default 15)
--edition N      the edition in which the proved calls read: 1 (default) or 2, then also texts on which the
                 editions differ; tokens are always read in edition 1
callgrind        instructions per byte of the same texts; of the lexer by pass too; needs valgrind, takes
                 minutes
count            makes the inputs and calls one side once, for callgrind's
                 --toggle-collect=bench_measured; tokens is the calls' texts as far as the tokens
TEXT             of lexer: typical, cjk, cyrillic, crlf, quotes, comments, blanks, names, strings,
                 numbers, symbols, refused; any-words, same-front, long-words, three-bytes,
                 last-byte-off, doubles, short-words (words against a table of 64 KiB), short-table
                 (512 bytes), shorter-table (128 bytes)
                 of calls: the programs typical, deep, wide, names, strings, refused (at its last token);
                 item, stmt, expr, type by their calls; 1-KiB, 4-KiB, 16-KiB, 64-KiB, 256-KiB, 1024-KiB;
                 in edition 2 closers and deepest (types closed by `>>`) and dates
SIDE             original, or proved-full, proved-tight, proved-none by the records lent: one for each
                 byte and one more, as many as there are, none
--stop PASS      have the text refused at its end by the pass utf8 or source (default none)

Buffers are filled before each call, so that their pages are there. The original is given text that is
known to be UTF-8, and what it makes is dropped after the measuring; the proved side tests the UTF-8 and
the word table within it.
Exit code: 0, or 2 on bad usage or where valgrind fails.
";

fn main() -> ExitCode {
    args::run(HELP, |mut args| {
        let rounds = args.number("--rounds")?.unwrap_or(15) as usize;
        let edition = args.value("--edition")?.unwrap_or("1".to_string());
        let edition: Edition = edition.parse().map_err(|error| format!("{error}"))?;
        let stop = args.value("--stop")?.unwrap_or("none".to_string());
        let operands = args.any_operands()?;
        let operands: Vec<&str> = operands.iter().map(String::as_str).collect();
        match operands[..] {
            ["lexer"] if rounds > 0 => time::print_lexer(rounds),
            ["calls"] if rounds > 0 => time::print_calls(rounds, edition),
            ["callgrind", "lexer"] => count::print_lexer()?,
            ["callgrind", "calls"] => count::print_calls(edition)?,
            ["count", what, text, side] => count::once(what, text, side, &stop, edition)?,
            _ => return Err("no such measurement".to_string()),
        }
        Ok(ExitCode::SUCCESS)
    })
}
