//! Grammatical token lists whose measure by document 01 is chosen beforehand.
//!
//! Each production is given the exact measure that it shall have: the greatest
//! among its expressions (at least 1 each) and types.

mod decl;
mod expr;
mod stmt;
mod ty;

use crate::rng::Rng;
use oracle::Call;

pub use expr::LEVELS;

/// Which construct carries the measure of an expression.
#[derive(Clone, Copy, Debug, PartialEq, Eq)]
pub enum Shape {
    Mixed,
    Parentheses,
    Checked,
    Wrapping,
    Level(usize),
    Prefix,
    Field,
    Link,
    Argument,
}

#[rustfmt::skip]
const NAMES: [&str; 24] = [
    "a", "b", "x1", "_", "_0", "owner", "balance", "Amount", "of", "seconds", "minutes", "hours", "days",
    "weeks", "months", "years", "msg", "uint256", "function", "Contract", "quorum", "entry_", "Address",
    "a_name_that_is_rather_long_but_still_a_name_0123456789",
];
#[rustfmt::skip]
const INTS: [&str; 7] = ["0", "1", "42", "1_000", "9_", "7__7", "18446744073709551616"];
#[rustfmt::skip]
const STRINGS: [&str; 8] = [
    "\"\"", "\"a\"", "\"\\\"", "\"no // comment\"", "\"第三者\"", "\"Größe\"", "\"\u{1F512}\u{1}\t\"",
    "\"msg\"",
];

/// Makes tokens.
pub struct Maker<'r> {
    pub rng: &'r mut Rng,
    pub shape: Shape,
    /// The greatest length of a list.
    pub list: usize,
    /// The greatest measure of what stands beside the deepest part.
    pub loose: usize,
    pub out: Vec<&'static str>,
}

impl Maker<'_> {
    /// A text for the call with exactly this measure; expressions have at least 1.
    pub fn text(&mut self, call: Call, measure: usize) {
        match call {
            Call::Program => self.program(measure),
            Call::Item => self.item(measure),
            Call::Stmt => self.stmt(measure),
            Call::Expr => self.expr(measure),
            Call::Type => self.ty(measure),
        }
    }

    fn put(&mut self, tokens: &[&'static str]) {
        self.out.extend_from_slice(tokens);
    }

    fn pick(&mut self, from: &[&'static str]) {
        let token = *self.rng.pick(from);
        self.out.push(token);
    }

    fn name(&mut self) {
        self.pick(&NAMES);
    }

    fn small(&mut self, limit: usize) -> usize {
        let most = limit.min(self.loose);
        self.rng.below(most + 1)
    }

    // So many measures, the greatest of them exactly `measure`.
    fn spread(&mut self, count: usize, measure: usize) -> Vec<usize> {
        let mut measures: Vec<usize> = (0..count).map(|_| self.small(measure)).collect();
        if count > 0 {
            let deepest = self.rng.below(count);
            measures[deepest] = measure;
        }
        measures
    }

    // A list's length: at least 1 where something must carry the measure.
    fn length(&mut self, measure: usize) -> usize {
        let least = usize::from(measure > 0);
        self.rng.between(least, self.list.max(1))
    }
}
