//! The oracle: the original Rust reader behind the five calls of document 01.
//!
//! Tokens, trees, spans and refusals 4 to 10 and 12 to 22 come from the
//! original's own functions. Refusals 1, 2, 3, 11 and 23, the lent word table
//! and the two buffers are document 01's additions and are made here. The
//! original reads edition 1; edition 2 is made from its answers (`edition`).

pub mod args;
mod days;
mod edition;
pub mod frame;
pub mod kinds;
mod lex;
mod refusal;
pub mod table;
mod tree;

pub use refusal::Refusal;

use quanta_lexer::Token;
use std::collections::HashSet;

/// The longest source, in bytes.
pub const MAX_SOURCE: usize = 1_048_576;
/// Words of one token record.
pub const TOKEN_WORDS: usize = 3;
/// Words of one tree record.
pub const TREE_WORDS: usize = 6;

#[derive(Clone, Copy, Debug, PartialEq, Eq)]
pub enum Call {
    Program,
    Item,
    Stmt,
    Expr,
    Type,
}

impl Call {
    pub const ALL: [Call; 5] = [
        Call::Program,
        Call::Item,
        Call::Stmt,
        Call::Expr,
        Call::Type,
    ];

    pub fn name(self) -> &'static str {
        match self {
            Call::Program => "program",
            Call::Item => "item",
            Call::Stmt => "stmt",
            Call::Expr => "expr",
            Call::Type => "type",
        }
    }

    pub fn from_name(name: &str) -> Option<Call> {
        Call::ALL.into_iter().find(|call| call.name() == name)
    }
}

/// One call with all its inputs; the two lengths are those of the lent u32 buffers, in words.
#[derive(Clone, Debug, PartialEq, Eq)]
pub struct Case {
    pub edition: u32,
    pub call: Call,
    pub source: Vec<u8>,
    pub words: Vec<u8>,
    pub token_words: usize,
    pub tree_words: usize,
}

impl Case {
    /// A case of edition 1 with room for as many tokens and records as a source of this length can have.
    pub fn ample(call: Call, source: Vec<u8>, words: Vec<u8>) -> Case {
        let most = source.len() + 1;
        Case {
            edition: 1,
            call,
            source,
            words,
            token_words: TOKEN_WORDS * most,
            tree_words: TREE_WORDS * most,
        }
    }

    /// The same case in this edition.
    pub fn in_edition(self, edition: u32) -> Case {
        Case { edition, ..self }
    }
}

#[derive(Clone, Copy, Debug, PartialEq, Eq)]
pub enum Answer {
    Accepted { tokens: u32, records: u32 },
    Refused(Refusal),
}

/// The answer of a call and the whole content of both buffers after it.
#[derive(Clone, Debug, PartialEq, Eq)]
pub struct Outcome {
    pub answer: Answer,
    pub tokens: Vec<u32>,
    pub tree: Vec<u32>,
}

/// Reads a case as document 01 says, and in edition 2 document 02.
pub fn read(case: &Case) -> Outcome {
    let mut tokens = vec![0; case.token_words];
    let mut tree = vec![0; case.tree_words];
    let answer = match fill(case, &mut tokens, &mut tree) {
        Ok(accepted) => accepted,
        Err(refusal) => Answer::Refused(refusal),
    };
    Outcome {
        answer,
        tokens,
        tree,
    }
}

/// Reads a case as far as its tokens, in edition 1 whatever its own is: refusals 1 to 11, or accepted with no
/// records. There is no tree buffer.
pub fn read_lexical(case: &Case) -> Outcome {
    let mut tokens = vec![0; case.token_words];
    let answer = match fill_tokens(case, &ONE, &mut tokens) {
        Ok(lexed) => Answer::Accepted {
            tokens: lexed.tokens.len() as u32,
            records: 0,
        },
        Err(refusal) => Answer::Refused(refusal),
    };
    Outcome {
        answer,
        tokens,
        tree: Vec::new(),
    }
}

/// What an edition reads by: the tokens of a source, and the tree records of a text with these tokens.
struct Rules {
    tokens: fn(&str, &str, &HashSet<&[u8]>) -> Result<Vec<Token>, Refusal>,
    records: fn(Call, &str, &[Token]) -> Result<Vec<[u32; 6]>, Refusal>,
}

const ONE: Rules = Rules {
    tokens: lex::tokens,
    records: tree::records,
};

const TWO: Rules = Rules {
    tokens: edition::tokens,
    records: edition::records,
};

// The tests in their order; a buffer is written only once its records are known to fit.
fn fill(case: &Case, token_buffer: &mut [u32], tree_buffer: &mut [u32]) -> Result<Answer, Refusal> {
    let rules = match case.edition {
        1 => ONE,
        2 => TWO,
        _ => return Err(Refusal::at(refusal::UNKNOWN_EDITION, 0, 0)),
    };
    let lexed = fill_tokens(case, &rules, token_buffer)?;
    let tree_records = (rules.records)(case.call, &lexed.text, &lexed.tokens)?;
    store(&tree_records, tree_buffer, refusal::NO_TREE_ROOM)?;
    Ok(Answer::Accepted {
        tokens: lexed.tokens.len() as u32,
        records: tree_records.len() as u32,
    })
}

// The text that the original reads in place of the source, and its tokens.
struct Lexed {
    text: String,
    tokens: Vec<Token>,
}

// Tests 1 to 11 and 28, and the token buffer.
fn fill_tokens(case: &Case, rules: &Rules, buffer: &mut [u32]) -> Result<Lexed, Refusal> {
    let lent = table::words(&case.words)?;
    if case.source.len() > MAX_SOURCE {
        return Err(Refusal::at(
            refusal::SOURCE_TOO_LONG,
            MAX_SOURCE,
            MAX_SOURCE,
        ));
    }
    let source = std::str::from_utf8(&case.source).map_err(|error| {
        let at = error.valid_up_to();
        Refusal::at(refusal::NOT_UTF8, at, at + 1)
    })?;
    let text = lex::without_unlent_words(source, &lent);
    let tokens = (rules.tokens)(source, &text, &lent)?;
    let records: Vec<_> = tokens.iter().map(lex::record).collect();
    store(&records, buffer, refusal::NO_TOKEN_ROOM)?;
    Ok(Lexed { text, tokens })
}

// Writes the records to the front of the buffer, or refuses by `number` with the need.
fn store<const N: usize>(
    records: &[[u32; N]],
    buffer: &mut [u32],
    number: u32,
) -> Result<(), Refusal> {
    if records.len() > buffer.len() / N {
        return Err(Refusal::need(number, records.len()));
    }
    for (place, record) in buffer.chunks_exact_mut(N).zip(records) {
        place.copy_from_slice(record);
    }
    Ok(())
}
