//! Answers as lines.

use oracle::{frame, Outcome};

/// The verdict, the tokens if asked for, and the tree.
pub fn lines(outcome: &Outcome, with_tokens: bool) -> String {
    let mut out = Vec::new();
    frame::write_verdict(&outcome.answer, &mut out);
    if with_tokens {
        frame::write_tokens(&outcome.tokens, &mut out);
    }
    frame::write_tree(&outcome.tree, &mut out);
    String::from_utf8(out).unwrap()
}
