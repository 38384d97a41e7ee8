//! Cases at the greatest source length and one byte above it.

use crate::rng::Rng;
use oracle::{Call, Case, MAX_SOURCE};

/// A source of exactly the greatest length, one byte less or one more.
pub fn case(rng: &mut Rng) -> Case {
    let length = rng.between(MAX_SOURCE - 1, MAX_SOURCE + 1);
    let (call, front, filler, back) = *rng.pick(&[
        (Call::Program, "", " ", ""),
        (Call::Program, "// ", "-", "\ncontract C { }"),
        (Call::Program, "contract C { genesis { ", "a;", "} }"),
        (Call::Item, "state { ", "a:B;", "}"),
        (Call::Expr, "f(1", ",1", ")"),
        (Call::Expr, "\"", "ö", "\""),
        (Call::Expr, "a", "a", "a"),
        (Call::Stmt, "a = ", "\n", "1;"),
        (Call::Type, "Map<1", ",1", ">"),
        (Call::Type, "A", " ", "#"),
        (Call::Expr, "msg", " msg", ""),
        (Call::Stmt, "a", " a", " wei"),
        (Call::Item, "genesis {", "-a;", ""),
    ]);
    let words = if rng.once_in(3) {
        oracle::table::original()
    } else {
        Vec::new()
    };
    let mut case = Case::ample(call, filled(length, front, filler, back), words);
    if rng.once_in(4) {
        case.token_words = rng.below(case.token_words);
        case.tree_words = rng.below(case.tree_words);
    }
    case
}

// `front`, as many whole fillers as fit, blanks up to the length, `back`.
pub fn filled(length: usize, front: &str, filler: &str, back: &str) -> Vec<u8> {
    let middle = length - front.len() - back.len();
    let fillers = filler.repeat(middle / filler.len());
    let blanks = " ".repeat(middle % filler.len());
    format!("{front}{fillers}{blanks}{back}").into_bytes()
}
