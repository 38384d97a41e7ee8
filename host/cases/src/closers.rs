//! Texts of types in which `>>` may close two lists.

use crate::exhaustive::{longest, Strings};
use crate::{edits, nesting};
use oracle::{Call, Case};

/// Where a type stands: as itself, as a field's, as a parameter's.
const PLACES: [(Call, &str, &str); 3] = [
    (Call::Type, "", ""),
    (Call::Item, "state{a:", ";}"),
    (Call::Item, "event E(a:", ");"),
];

/// A text that a type begins with, and tokens whose strings follow it.
const LISTS: [(&str, &str); 5] = [
    ("", "A B < > >> , 1 of ( ) ; : ="),
    ("", "A < > >> ,"),
    ("A<B<", "C < > >> , 1 of ="),
    ("A<B<C<D", "> >> , E < = ) ;"),
    ("A<B<C<1 of 2", "> >> >= = , D"),
];

/// All these cases.
pub fn all(most: usize) -> impl Iterator<Item = Case> {
    strings(most).chain(joined())
}

/// The strings of each list at each place, with blanks between the tokens and without, up to the length at which a
/// list has at most so many.
pub fn strings(most: usize) -> impl Iterator<Item = Case> {
    PLACES.into_iter().flat_map(move |(call, front, back)| {
        let texts = LISTS.into_iter().flat_map(move |(begun, tokens)| {
            let longest = longest(tokens.split_whitespace().count(), most);
            let spaced = Strings::of_tokens(tokens, longest);
            let tight = Strings::of_tight_tokens(tokens, longest);
            spaced.chain(tight).map(move |text| (begun, text))
        });
        texts.map(move |(begun, text)| {
            let source = [front.as_bytes(), begun.as_bytes(), &text, back.as_bytes()].concat();
            Case::ample(call, source, Vec::new())
        })
    })
}

/// The edits of one token and the texts of measures around 64 that hold `> >`, with `>>` there.
pub fn joined() -> impl Iterator<Item = Case> {
    let edits = Call::ALL.into_iter().flat_map(edits::of);
    let nested = nesting::all().map(|nested| nested.case);
    edits.chain(nested).filter_map(|case| {
        let text = String::from_utf8(case.source).expect("these texts are UTF-8");
        let joined = text.replace("> >", ">>");
        (joined != text).then(|| Case::ample(case.call, joined.into_bytes(), case.words))
    })
}
