//! The seeded generator of cases. The same kind, seed, index and size give the same case everywhere.

mod blocks;
pub mod choice;
pub mod closers;
mod damage;
pub mod days;
pub mod edges;
mod editions;
pub mod edits;
pub mod exhaustive;
mod grammar;
mod layout;
mod limits;
pub mod nesting;
pub mod readings;

pub mod rng;
pub mod scalars;
pub mod stored;
mod tables;
pub mod words;

use grammar::{Maker, Shape, LEVELS};
use layout::lay_out;
use oracle::{Answer, Call, Case, TOKEN_WORDS, TREE_WORDS};
use rng::Rng;

/// The greatest length of a list where none is given.
pub const DEFAULT_SIZE: usize = 3;

#[derive(Clone, Copy, Debug, PartialEq, Eq)]
pub enum Kind {
    Grammar,
    Depth,
    Damage,
    Tables,
    Room,
    Bytes,
    Limits,
    All,
    Words,
    Blocks,
    Editions,
}

impl Kind {
    /// The kinds with their names; `all` is a mixture of those before it.
    pub const NAMES: [(Kind, &'static str); 11] = [
        (Kind::Grammar, "grammar"),
        (Kind::Depth, "depth"),
        (Kind::Damage, "damage"),
        (Kind::Tables, "tables"),
        (Kind::Room, "room"),
        (Kind::Bytes, "bytes"),
        (Kind::Limits, "limits"),
        (Kind::All, "all"),
        (Kind::Words, "words"),
        (Kind::Blocks, "blocks"),
        (Kind::Editions, "editions"),
    ];

    pub fn from_name(name: &str) -> Option<Kind> {
        let found = Kind::NAMES.iter().find(|(_, known)| *known == name);
        found.map(|(kind, _)| *kind)
    }
}

/// The case number `index` of a stream; `size` is the greatest length of a list.
pub fn case(kind: Kind, seed: u64, index: u64, size: usize) -> Case {
    case_of(kind, &mut rng_of(seed, index), size)
}

fn case_of(kind: Kind, rng: &mut Rng, size: usize) -> Case {
    match kind {
        Kind::Grammar => grammar_case(rng, size),
        Kind::Depth => depth_case(rng).0,
        Kind::Damage => damage_case(rng, size),
        Kind::Tables => tables_case(rng, size),
        Kind::Room => room_case(rng, size),
        Kind::Bytes => bytes_case(rng),
        Kind::Limits => limits::case(rng),
        Kind::All => case_of(mixed_kind(rng), rng, size),
        Kind::Words => with_any_room(words::case(rng), rng),
        Kind::Blocks => with_any_room(blocks::case(rng), rng),
        Kind::Editions => {
            let case = with_any_room(editions::case(rng, size), rng);
            around_room(case, rng)
        }
    }
}

/// A `depth` case with its measure.
pub fn measured_case(seed: u64, index: u64) -> (Case, usize) {
    depth_case(&mut rng_of(seed, index))
}

// Each case has its own numbers, so that one can be made without those before it.
fn rng_of(seed: u64, index: u64) -> Rng {
    let first = Rng::new(seed).bits();
    Rng::new(first ^ index.wrapping_mul(0xD134_2543_DE82_EF95))
}

// Cases at the limits are large, so they are few.
fn mixed_kind(rng: &mut Rng) -> Kind {
    if rng.once_in(2000) {
        return Kind::Limits;
    }
    match rng.below(20) {
        0..=3 => Kind::Grammar,
        4..=5 => Kind::Depth,
        6..=12 => Kind::Damage,
        13..=15 => Kind::Tables,
        16..=17 => Kind::Room,
        _ => Kind::Bytes,
    }
}

// Tokens of a grammatical text of moderate measure.
fn sentence(call: Call, rng: &mut Rng, size: usize) -> Vec<&'static str> {
    let measure = rng.between(usize::from(call == Call::Expr), 6);
    let mut maker = Maker {
        rng,
        shape: Shape::Mixed,
        list: size,
        loose: 4,
        out: Vec::new(),
    };
    maker.text(call, measure);
    maker.out
}

fn grammar_case(rng: &mut Rng, size: usize) -> Case {
    let call = *rng.pick(&Call::ALL);
    let tokens = sentence(call, rng, size);
    let case = Case::ample(call, lay_out(&tokens, rng), Vec::new());
    with_spare_words(case, rng)
}

fn depth_case(rng: &mut Rng) -> (Case, usize) {
    let (call, measure) = (*rng.pick(&Call::ALL), rng.between(60, 68));
    let tokens = deep_sentence(call, measure, rng);
    let case = Case::ample(call, lay_out(&tokens, rng), Vec::new());
    (with_spare_words(case, rng), measure)
}

// Tokens of a text of this measure that one construct or a mixture carries.
fn deep_sentence(call: Call, measure: usize, rng: &mut Rng) -> Vec<&'static str> {
    let shape = match rng.below(14) {
        0 => Shape::Parentheses,
        1 => Shape::Prefix,
        2 => Shape::Field,
        3 => Shape::Link,
        4 => Shape::Argument,
        5..=11 => Shape::Level(rng.below(LEVELS.len())),
        _ => Shape::Mixed,
    };
    let mut maker = Maker {
        rng,
        shape,
        list: 1,
        loose: 1,
        out: Vec::new(),
    };
    maker.text(call, measure);
    maker.out
}

fn damage_case(rng: &mut Rng, size: usize) -> Case {
    if rng.once_in(12) {
        return target_case(rng, size);
    }
    let call = *rng.pick(&Call::ALL);
    let mut tokens = if rng.once_in(10) {
        deep_sentence(call, 64, rng)
    } else {
        sentence(call, rng, size)
    };
    if rng.once_in(2) {
        tokens.truncate(40);
    }
    let on_tokens = rng.below(3);
    for _ in 0..on_tokens {
        damage::token(&mut tokens, rng);
    }
    let mut source = lay_out(&tokens, rng);
    for _ in 0..rng.between(usize::from(on_tokens == 0), 2) {
        damage::bytes(&mut source, rng);
    }
    let words = if rng.once_in(4) {
        tables::table(&tokens, rng)
    } else {
        Vec::new()
    };
    with_any_room(Case::ample(call, source, words), rng)
}

// An assignment to any expression, seldom a fit target.
fn target_case(rng: &mut Rng, size: usize) -> Case {
    let mut tokens = sentence(Call::Expr, rng, size);
    tokens.push(*rng.pick(&["=", "+=", "-="]));
    tokens.extend(sentence(Call::Expr, rng, size));
    tokens.push(";");
    let in_item = rng.once_in(3);
    if in_item {
        tokens.splice(0..0, ["genesis", "{"]);
        tokens.push("}");
    }
    let call = if in_item { Call::Item } else { Call::Stmt };
    with_any_room(Case::ample(call, lay_out(&tokens, rng), Vec::new()), rng)
}

fn tables_case(rng: &mut Rng, size: usize) -> Case {
    let call = *rng.pick(&Call::ALL);
    let mut tokens = sentence(call, rng, size);
    if rng.once_in(4) {
        damage::token(&mut tokens, rng);
    }
    let words = tables::table(&tokens, rng);
    with_any_room(Case::ample(call, lay_out(&tokens, rng), words), rng)
}

fn bytes_case(rng: &mut Rng) -> Case {
    let call = *rng.pick(&Call::ALL);
    let alphabet: &[u8] = match rng.below(3) {
        0 => b"",
        1 => b" \n\r\t!\"%&()*+,-./0123456789:;<=>@AZ_az{|}",
        _ => b"a1 .()<>=,;-+\"@/",
    };
    let mut source = Vec::new();
    for _ in 0..rng.below(40) {
        source.push(if alphabet.is_empty() {
            rng.byte()
        } else {
            *rng.pick(alphabet)
        });
    }
    with_any_room(Case::ample(call, source, Vec::new()), rng)
}

fn room_case(rng: &mut Rng, size: usize) -> Case {
    let case = grammar_case(rng, size);
    around_room(case, rng)
}

// Rooms around the counts that the case needs.
fn around_room(mut case: Case, rng: &mut Rng) -> Case {
    let ample = Case::ample(case.call, case.source.clone(), case.words.clone());
    let ample = ample.in_edition(case.edition);
    if let Answer::Accepted { tokens, records } = oracle::read(&ample).answer {
        case.token_words = words_around(tokens as usize, TOKEN_WORDS, ample.token_words, rng);
        case.tree_words = words_around(records as usize, TREE_WORDS, ample.tree_words, rng);
    }
    case
}

// Words for no record, for one too few, for exactly so many or for plenty, with a remainder below one record.
fn words_around(count: usize, width: usize, ample: usize, rng: &mut Rng) -> usize {
    match rng.below(8) {
        0 => rng.below(width),
        1 => (count - 1) * width + rng.below(width),
        2 => rng.below(count * width),
        3..=5 => count * width + rng.below(width),
        _ => ample,
    }
}

// Ample room with a few words more.
fn with_spare_words(mut case: Case, rng: &mut Rng) -> Case {
    if rng.once_in(4) {
        case.token_words += rng.below(8);
        case.tree_words += rng.below(8);
    }
    case
}

// Mostly ample room, sometimes less in one buffer or both.
fn with_any_room(mut case: Case, rng: &mut Rng) -> Case {
    if rng.once_in(10) {
        case.token_words = rng.below(case.token_words + 1);
    }
    if rng.once_in(10) {
        case.tree_words = rng.below(case.tree_words + 1);
    }
    with_spare_words(case, rng)
}
