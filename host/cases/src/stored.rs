//! The stored list of answers: short generated cases, each followed by the oracle's answer.

use crate::{case, Kind};
use oracle::{frame, Answer, Case, Outcome, TREE_WORDS};
use std::collections::HashMap;
use std::hash::Hash;

const SEED: u64 = 1;
const TRIED: u64 = 6000;
const LONGEST: usize = 180;
/// The kinds, and how many cases of each answer are kept.
const KINDS: [(Kind, u32); 7] = [
    (Kind::Grammar, 3),
    (Kind::Depth, 3),
    (Kind::Damage, 3),
    (Kind::Tables, 3),
    (Kind::Room, 3),
    (Kind::Bytes, 3),
    (Kind::Editions, 1),
];

/// The list as a stream of frames.
pub fn list() -> Vec<u8> {
    let mut out = Vec::new();
    for (case, outcome) in chosen() {
        frame::write_case(&case, &mut out).expect("a Vec takes every write");
        frame::write_answer(&outcome, &mut out);
    }
    out
}

/// A few cases for each of these kinds, each edition, call, verdict and kind of record, with short sources and tables.
pub fn chosen() -> Vec<(Case, Outcome)> {
    let mut list = Vec::new();
    let mut nodes = HashMap::new();
    for (kind, each) in KINDS {
        let mut kept = HashMap::new();
        for index in 0..TRIED {
            let case = case(kind, SEED, index, 1);
            if !is_short(&case) {
                continue;
            }
            let outcome = oracle::read(&case);
            let asked = (case.edition, case.call.name());
            let new_verdict = few(&mut kept, (asked, verdict(&outcome)), each);
            let new_node = outcome
                .tree
                .chunks_exact(TREE_WORDS)
                .filter(|r| few(&mut nodes, r[0], each))
                .count()
                > 0;
            if new_verdict || new_node {
                list.push((case, outcome));
            }
        }
    }
    list
}

// Counts this one; true for the first few.
fn few<K: Eq + Hash>(counts: &mut HashMap<K, u32>, key: K, each: u32) -> bool {
    let count = counts.entry(key).or_insert(0);
    *count += 1;
    *count <= each
}

fn is_short(case: &Case) -> bool {
    case.source.len() <= LONGEST && case.words.len() <= LONGEST
}

// The refusal's number, or 0.
fn verdict(outcome: &Outcome) -> u32 {
    match outcome.answer {
        Answer::Accepted { .. } => 0,
        Answer::Refused(refusal) => refusal.number,
    }
}
