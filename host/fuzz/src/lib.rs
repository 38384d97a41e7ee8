//! The fuzz target: any bytes are a case, and the proved calls must answer it as the original does.
//!
//! An input is five bytes, a word table and a source. The first byte is the edition: 1 where it is even, 2 where it
//! is odd, but 254 and 255 are unknown ones. The second modulo 5 is the call; the third is the table's length, as
//! far as there are bytes; the fourth and the fifth are the lengths of the token and of the tree buffer: below 128
//! ample room and so many words modulo 8 more, from 128 on that less 128 in words.

use compare::{reader, Pair};
use oracle::{Answer, Call, Case, Outcome, TREE_WORDS};
use std::sync::atomic::{AtomicU8, Ordering};
use std::sync::LazyLock;

const HEADER: usize = 5;

/// The case of an input.
pub fn case(input: &[u8]) -> Case {
    let mut header = [0; HEADER];
    let given = input.len().min(HEADER);
    header[..given].copy_from_slice(&input[..given]);
    let rest = &input[given..];
    let [edition, call, table_length, token_room, tree_room] = header;
    let (words, source) = rest.split_at(rest.len().min(usize::from(table_length)));
    let call = Call::ALL[usize::from(call) % Call::ALL.len()];
    let mut case = Case::ample(call, source.to_vec(), words.to_vec());
    case.edition = match edition {
        254 => 0,
        255 => u32::MAX,
        _ => 1 + u32::from(edition) % 2,
    };
    case.token_words = room(token_room, case.token_words);
    case.tree_words = room(tree_room, case.tree_words);
    case
}

fn room(byte: u8, ample: usize) -> usize {
    match byte {
        0..=127 => ample + usize::from(byte) % 8,
        _ => usize::from(byte - 128),
    }
}

/// The input of a case of edition 1 or 2 with ample room, if its table is short enough.
pub fn input(edition: u8, call: Call, source: &[u8], words: &[u8]) -> Option<Vec<u8>> {
    let length = u8::try_from(words.len()).ok()?;
    Some([&[edition - 1, call as u8, length, 0, 0], words, source].concat())
}

/// Compares both readers on an input; where they differ, says how, and on which smaller case.
pub fn compare(input: &[u8]) -> Result<(), String> {
    let case = case(input);
    let (original, proved) = (oracle::read(&case), proved::read(&case));
    mark(&case, &proved);
    if original == proved {
        return Ok(());
    }
    let mut said = Vec::new();
    let mut pair = Pair {
        left: reader("oracle")?,
        right: reader("proved")?,
    };
    pair.compare([Ok(case)].into_iter(), &mut said)?;
    Err(String::from_utf8_lossy(&said).into_owned())
}

// More counters for libFuzzer, by name of their section: the archive is not built with its instrumentation, so
// that what the answers hold stands in for the paths through it.
const COUNTERS: usize = 1 << 13;
#[link_section = "__libfuzzer_extra_counters"]
#[used]
static SEEN: [AtomicU8; COUNTERS] = [const { AtomicU8::new(0) }; COUNTERS];

// Set where the kept corpus is chosen, for which the original's code alone decides, so that it stays small.
static CODE_ONLY: LazyLock<bool> = LazyLock::new(|| std::env::var_os("FUZZ_CODE_ONLY").is_some());

// Marks a refusal's numbers, or each kind of record with its flag and the kind of the record before it.
fn mark(case: &Case, outcome: &Outcome) {
    let call = case.call as u32;
    match outcome.answer {
        _ if *CODE_ONLY => {}
        Answer::Refused(r) => seen(&[case.edition, call, r.number, r.wanted, r.found]),
        Answer::Accepted { .. } => {
            let mut before = 0;
            for record in outcome.tree.chunks_exact(TREE_WORDS) {
                seen(&[before, record[0], record[1]]);
                before = record[0];
            }
        }
    }
}

fn seen(what: &[u32]) {
    let mix = |hash: u32, word: &u32| (hash ^ word).wrapping_mul(0x0100_0193).rotate_left(7);
    let hash = what.iter().fold(0x811C_9DC5, mix);
    SEEN[hash as usize % COUNTERS].store(1, Ordering::Relaxed);
}

/// What libFuzzer calls with each input.
///
/// # Safety
/// `data` points to `length` bytes.
#[no_mangle]
pub unsafe extern "C" fn LLVMFuzzerTestOneInput(data: *const u8, length: usize) -> i32 {
    let input = match length {
        0 => &[],
        // SAFETY: as this function's.
        _ => unsafe { std::slice::from_raw_parts(data, length) },
    };
    if let Err(said) = compare(input) {
        eprintln!("{said}");
        std::process::abort();
    }
    0
}
