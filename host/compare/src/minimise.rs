//! Makes a case on which the readers disagree smaller.

use crate::Pair;
use oracle::Case;

// A bound on the work for large sources and slow readers.
const MOST_TRIALS: usize = 4000;

/// The case after greedy deletion of parts of its table and source, ever smaller ones down to single bytes.
pub fn minimised(pair: &mut Pair, case: Case) -> Result<Case, String> {
    let mut best = case;
    let mut trials = 0;
    let mut part = best.source.len().max(best.words.len());
    while part > 0 {
        let shrunk = shrink(pair, &mut best, part, &mut trials, |case| &mut case.words)?
            | shrink(pair, &mut best, part, &mut trials, |case| &mut case.source)?;
        if !shrunk {
            part /= 2;
        }
    }
    Ok(best)
}

// Tries without each part of this length; tells whether any could go.
fn shrink(
    pair: &mut Pair,
    best: &mut Case,
    part: usize,
    trials: &mut usize,
    field: fn(&mut Case) -> &mut Vec<u8>,
) -> Result<bool, String> {
    let mut shrunk = false;
    let mut at = 0;
    while at < field(best).len() && *trials < MOST_TRIALS {
        let mut smaller = best.clone();
        let bytes = field(&mut smaller);
        let end = bytes.len().min(at + part);
        bytes.drain(at..end);
        *trials += 1;
        if pair.read(&smaller)?.agree() {
            at += part;
        } else {
            *best = smaller;
            shrunk = true;
        }
    }
    Ok(shrunk)
}
