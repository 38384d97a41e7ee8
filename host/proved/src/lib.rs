//! The proved readers, linked from their archives, as readers of the oracle's cases.

use oracle::{Answer, Case, Outcome, Refusal};
use quanta::raw;

/// What the proved lexer returns; number 0 means accepted.
#[repr(C)]
#[derive(Clone, Copy, Debug, PartialEq, Eq)]
pub struct Lexed {
    pub number: u32,
    pub start: u32,
    pub end: u32,
    pub need: u32,
    pub tokens: u32,
}

// A slice is two arguments of C, its pointer and its length.
extern "C" {
    fn quanta_tokenize(
        source: *const u8,
        source_len: usize,
        words: *const u8,
        words_len: usize,
        tokens: *mut u32,
        tokens_len: usize,
    ) -> Lexed;
}

/// Reads a source under a word table into token records, in edition 1.
pub fn tokenize(source: &[u8], words: &[u8], tokens: &mut [u32]) -> Lexed {
    // SAFETY: each pointer goes with its slice's length; only `tokens` is written, and it is lent mutably.
    unsafe {
        quanta_tokenize(
            source.as_ptr(),
            source.len(),
            words.as_ptr(),
            words.len(),
            tokens.as_mut_ptr(),
            tokens.len(),
        )
    }
}

// What lent buffers are full of, so that a word that is not written shows.
const RUBBISH: u32 = 0xA5A5_5A5A;
// Words behind a lent buffer that must stay as they are.
const FENCE: usize = 4;

/// Reads a case by its call, as `oracle::read` does.
pub fn read(case: &Case) -> Outcome {
    let mut tokens = Lent::new(case.token_words);
    let mut tree = Lent::new(case.tree_words);
    let given = raw::read(
        case.edition,
        call(case.call),
        &case.source,
        &case.words,
        tokens.words(),
        tree.words(),
    );
    Outcome {
        answer: answer(given),
        tokens: tokens.taken(),
        tree: tree.taken(),
    }
}

/// Reads a case as far as its tokens, as `oracle::read_lexical` does.
pub fn read_lexical(case: &Case) -> Outcome {
    let mut tokens = Lent::new(case.token_words);
    let lexed = tokenize(&case.source, &case.words, tokens.words());
    Outcome {
        answer: answer(whole(lexed)),
        tokens: tokens.taken(),
        tree: Vec::new(),
    }
}

// A lent buffer with a fence behind it.
struct Lent(Vec<u32>);

impl Lent {
    fn new(length: usize) -> Lent {
        Lent(vec![RUBBISH; length + FENCE])
    }

    fn words(&mut self) -> &mut [u32] {
        let length = self.0.len() - FENCE;
        &mut self.0[..length]
    }

    // The words without the fence, which must be as it was.
    fn taken(mut self) -> Vec<u32> {
        let fence = self.0.split_off(self.0.len() - FENCE);
        assert_eq!(fence, [RUBBISH; FENCE], "written behind the buffer");
        self.0
    }
}

/// The call of this name.
pub fn call(call: oracle::Call) -> quanta::Call {
    match call {
        oracle::Call::Program => quanta::Call::Program,
        oracle::Call::Item => quanta::Call::Item,
        oracle::Call::Stmt => quanta::Call::Stmt,
        oracle::Call::Expr => quanta::Call::Expr,
        oracle::Call::Type => quanta::Call::Type,
    }
}

fn whole(lexed: Lexed) -> raw::Outcome {
    raw::Outcome {
        number: lexed.number,
        start: lexed.start,
        end: lexed.end,
        need: lexed.need,
        tokens: lexed.tokens,
        ..raw::Outcome::default()
    }
}

// A field that should be 0 must show, so an acceptance with other numbers, or a refusal with counts, becomes a
// refusal that the oracle never gives.
fn answer(given: raw::Outcome) -> Answer {
    let raw::Outcome {
        number,
        start,
        end,
        wanted,
        found,
        need,
        tokens,
        records,
    } = given;
    if [number, start, end, wanted, found, need] == [0; 6] {
        return Answer::Accepted { tokens, records };
    }
    let shown = if (tokens, records) == (0, 0) {
        number
    } else {
        u32::MAX
    };
    Answer::Refused(Refusal {
        number: shown,
        start,
        end,
        wanted,
        found,
        need,
    })
}
