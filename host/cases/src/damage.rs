//! Damage to token lists and to bytes.

use crate::rng::Rng;

/// Tokens to put in wrong places: every symbol, every keyword and some that fail in the lexer.
#[rustfmt::skip]
pub const TOKENS: [&str; 70] = [
    "contract", "entry", "guard", "genesis", "caller", "in_asset", "native", "now", "state", "invariant",
    "event", "emit", "asset", "let", "signed", "by", "sealed", "meta", "Quorum", "after", "from", "mints",
    "burns", "conserves", "writes", "reads", "limits", "denies", "import", "checked", "wrapping",
    "{", "}", "(", ")", ",", ";", ":", ".", "=", "+=", "-=", "+", "-", "*", "/", "%", "<", ">", "<=", ">=",
    "==", "!=", "!", "&&", "||", ">>",
    "of", "days", "1", "@2024-02-30", "\"s\"", "function", "2024-01-01", "007", "0_1", "\"open", "@",
    "&", "|",
];

/// Pieces that are no UTF-8 text by themselves, at the edges of RFC 3629's ranges.
const STRAY: [&[u8]; 16] = [
    &[0x80],
    &[0xBF],
    &[0xC0, 0x80],
    &[0xC1, 0xBF],
    &[0xC2],
    &[0xE0, 0x9F, 0x80],
    &[0xE2, 0x80],
    &[0xE2, 0x28, 0xA1],
    &[0xED, 0xA0, 0x80],
    &[0xEF, 0xBB],
    &[0xF0, 0x8F, 0x80, 0x80],
    &[0xF0, 0x9F, 0x94],
    &[0xF4, 0x90, 0x80, 0x80],
    &[0xF5, 0x80, 0x80, 0x80],
    &[0xFF],
    &[0xFE],
];

/// Ends of document 01's ranges of barred characters.
const BARRED: [(u32, u32); 9] = [
    (0x85, 0x85),
    (0xAD, 0xAD),
    (0x61C, 0x61C),
    (0x180E, 0x180E),
    (0x200B, 0x200F),
    (0x2028, 0x202E),
    (0x2060, 0x206F),
    (0xFFF9, 0xFFFB),
    (0xFEFF, 0xFEFF),
];

/// Text that the lexer reads in a special way.
#[rustfmt::skip]
const PIECES: [&str; 28] = [
    "\r", "\n", "\r\n", "\"", "//", "/", "2024-01-01", "@2024-01-01", "@2024-01-011", "12024-10-10", "00",
    "007", "0_", "0x", "#", "$", "&", "|", "@", "\0", "\u{1b}", "ö", "_", "9", " 0msg ", " 1_wei ",
    " @2024-01-01msg ", " @2024-01-01_msg ",
];

/// Deletes, doubles, swaps, replaces or inserts a token.
pub fn token(tokens: &mut Vec<&'static str>, rng: &mut Rng) {
    let place = rng.below(tokens.len() + 1);
    let wrong = *rng.pick(&TOKENS);
    if place == tokens.len() {
        return tokens.push(wrong);
    }
    match rng.below(5) {
        0 => drop(tokens.remove(place)),
        1 => tokens.insert(place, tokens[place]),
        2 => {
            let other = rng.below(tokens.len());
            tokens.swap(place, other);
        }
        3 => tokens[place] = wrong,
        _ => tokens.insert(place, wrong),
    }
}

/// Changes some bytes.
pub fn bytes(source: &mut Vec<u8>, rng: &mut Rng) {
    let place = rng.below(source.len() + 1);
    match rng.below(8) {
        0 => source.truncate(place),
        1 if place < source.len() => source[place] ^= 1 << rng.below(7),
        2 if place < source.len() => drop(source.remove(place)),
        3 if place < source.len() => source[place] = rng.byte() % 128,
        4 => insert(source, place, rng.pick::<&[u8]>(&STRAY)),
        5 => insert(source, place, near_barred(rng).to_string().as_bytes()),
        _ => insert(source, place, rng.pick(&PIECES).as_bytes()),
    }
}

fn insert(source: &mut Vec<u8>, place: usize, piece: &[u8]) {
    source.splice(place..place, piece.iter().copied());
}

// A barred character or a neighbour of its range.
fn near_barred(rng: &mut Rng) -> char {
    let (low, high) = *rng.pick(&BARRED);
    let code = rng.between(low as usize - 1, high as usize + 1);
    char::from_u32(code as u32).expect("no range lies beside the surrogates")
}
