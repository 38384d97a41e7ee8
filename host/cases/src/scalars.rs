//! Every Unicode scalar value in a string, in a comment and first in the source.

use oracle::{Answer, Call, Case};

// Scalars that share a source where it is accepted.
const BATCH: usize = 64;

/// Where a scalar stands.
#[derive(Clone, Copy)]
enum Place {
    String,
    Comment,
    First,
}

/// The cases of all scalars; the call is `expr`, the table empty, the room ample.
pub fn all() -> impl Iterator<Item = Case> {
    of(|| '\0'..=char::MAX)
}

/// The cases of some scalars, given in rising order.
pub fn of<I: Iterator<Item = char>>(scalars: impl Fn() -> I) -> impl Iterator<Item = Case> {
    let first = scalars().map(|scalar| case(Place::First, &[scalar]));
    together(Place::String, scalars())
        .chain(together(Place::Comment, scalars()))
        .chain(first)
}

// Batches of scalars, and each alone where it is ASCII or where one of its batch is refused.
fn together(place: Place, mut scalars: impl Iterator<Item = char>) -> impl Iterator<Item = Case> {
    let batches = std::iter::from_fn(move || {
        let first = scalars.next()?;
        let mut batch = vec![first];
        while batch.len() < BATCH && !first.is_ascii() {
            let Some(next) = scalars.next() else { break };
            batch.push(next);
        }
        Some(batch)
    });
    batches.flat_map(move |batch| {
        let whole = case(place, &batch);
        if is_accepted(&whole) {
            return vec![whole];
        }
        batch.iter().map(|one| case(place, &[*one])).collect()
    })
}

fn case(place: Place, scalars: &[char]) -> Case {
    let mut text = String::new();
    for scalar in scalars {
        text += &match place {
            Place::String => format!("\"{scalar}\" "),
            Place::Comment => format!("//{scalar}\na "),
            Place::First => format!("{scalar}a"),
        };
    }
    Case::ample(Call::Expr, text.into_bytes(), Vec::new())
}

fn is_accepted(case: &Case) -> bool {
    matches!(oracle::read_lexical(case).answer, Answer::Accepted { .. })
}
