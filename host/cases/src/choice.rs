//! The options by which the programs choose cases.

use crate::exhaustive::{token_strings, Strings, DEFAULT_ALPHABET};
use crate::{case, closers, days, edges, edits, nesting, scalars, Kind, DEFAULT_SIZE};
use oracle::args::Args;
use oracle::{Call, Case};

/// The part of the programs' help that tells these options.
pub const HELP: &str = "\
--seed N          the stream's seed; the same seed gives the same bytes everywhere
--count N         the number of cases
--kind KIND       grammar  grammatical texts of every production
                  depth    texts of an exact measure from 60 to 68
                  damage   damaged tokens and bytes
                  tables   word tables, well formed and not
                  room     buffers too short by one, exact, ample, of odd lengths
                  bytes    random bytes
                  limits   sources of 1,048,575 to 1,048,577 bytes
                  all      a mixture (default)
                  words    word tables of many words, sources of words nearly in them
                  blocks   long runs of one script, whole or damaged at any offset
                  editions nested types closed by `>>`, and dates, days or not; of any edition
                  these are whole lists and take no seed and no count:
                  scalars  every Unicode scalar in a string, in a comment and first
                  tokens   all short strings of tokens, for each call
                  edits    all edits of one token in a program of every production and in its parts
                  nesting  measures 62 to 66 by every construct at every place
                  edges    rooms, empty sources, the longest sources and tables, for each call
                  closers  all short strings of tokens in types at each place, and other texts with `>>`
                  days     dates around the ends of months, and many that are no days
--most N          with tokens and closers: the most strings of one list of tokens (default 10,000)
--size N          the greatest length of a list in a text (default 3)
--edition N       all cases in this edition (default: 1, but for editions)
--exhaustive LEN  all strings of at most LEN bytes, with an empty table and room enough
--alphabet STR    their bytes (default: a1.(),<>=-\"@/ ; with the blank and LF)
--call CALL       their call: program, item, stmt, expr (default) or type
";

type Cases = Box<dyn Iterator<Item = Case>>;

/// The cases that the options choose, or none where they choose none.
pub fn chosen(args: &mut Args) -> Result<Option<Cases>, String> {
    let edition = args.edition()?;
    let cases = of_any_edition(args)?;
    Ok(match (cases, edition) {
        (Some(cases), Some(edition)) => Some(Box::new(cases.map(move |c| c.in_edition(edition)))),
        (cases, _) => cases,
    })
}

fn of_any_edition(args: &mut Args) -> Result<Option<Cases>, String> {
    if let Some(longest) = args.number("--exhaustive")? {
        return Ok(Some(exhaustive(args, longest as usize)?));
    }
    let kind = args.value("--kind")?.unwrap_or("all".to_string());
    let most = args.number("--most")?.unwrap_or(10_000) as usize;
    match kind.as_str() {
        "scalars" => return Ok(Some(Box::new(scalars::all()))),
        "tokens" => return Ok(Some(Box::new(token_strings(most)))),
        "edits" => return Ok(Some(Box::new(Call::ALL.into_iter().flat_map(edits::of)))),
        "nesting" => return Ok(Some(Box::new(nesting::all().map(|nested| nested.case)))),
        "edges" => return Ok(Some(Box::new(edges::all()))),
        "closers" => return Ok(Some(Box::new(closers::all(most)))),
        "days" => return Ok(Some(Box::new(days::all()))),
        _ => {}
    }
    let Some(seed) = args.number("--seed")? else {
        return Ok(None);
    };
    let count = args.number("--count")?.ok_or("--seed needs --count")?;
    let size = args.number("--size")?.unwrap_or(DEFAULT_SIZE as u64) as usize;
    let kind = Kind::from_name(&kind).ok_or(format!("unknown kind {kind}"))?;
    Ok(Some(Box::new(
        (0..count).map(move |index| case(kind, seed, index, size)),
    )))
}

fn exhaustive(args: &mut Args, longest: usize) -> Result<Cases, String> {
    let alphabet = args
        .value("--alphabet")?
        .unwrap_or(DEFAULT_ALPHABET.to_string());
    let call = args.value("--call")?.unwrap_or("expr".to_string());
    let call = Call::from_name(&call).ok_or(format!("unknown call {call}"))?;
    let strings = Strings::new(&alphabet, longest);
    Ok(Box::new(
        strings.map(move |text| Case::ample(call, text, Vec::new())),
    ))
}
