//! The five proved calls against the original: answers and every word of both buffers. A sample of compare/calls.sh.

use cases::exhaustive::{token_strings, Strings, DEFAULT_ALPHABET};
use cases::{case, closers, days, edges, edits, nesting, stored, Kind, DEFAULT_SIZE};
use compare::{reader, Pair};
use oracle::{Call, Case};

fn agree(cases: impl Iterator<Item = Case>) {
    let mut pair = Pair {
        left: reader("oracle").unwrap(),
        right: reader("proved").unwrap(),
    };
    let mut shown = Vec::new();
    let count = pair.compare(cases.map(Ok), &mut shown).unwrap();
    let shown = String::from_utf8_lossy(&shown);
    assert_eq!(count.disagreements, 0, "{count}\n{shown}");
    assert!(count.cases > 0);
}

#[test]
fn generated_cases() {
    for (place, (kind, _)) in Kind::NAMES.into_iter().enumerate() {
        let count = match kind {
            Kind::Limits => 40,
            Kind::Words => 8_000,
            _ => 60_000,
        };
        let seed = 2000 + place as u64;
        agree((0..count).map(|index| case(kind, seed, index, DEFAULT_SIZE)));
    }
}

#[test]
fn stored_cases() {
    let list = stored::list();
    let mut frames = oracle::frame::Frames::new(&list[..]);
    let mut cases = Vec::new();
    while let Some(case) = frames.next_case().unwrap() {
        frames.next_answer(&mut Vec::new()).unwrap();
        cases.push(case);
    }
    agree(cases.into_iter());
}

#[test]
fn short_strings() {
    agree(token_strings(100_000));
    for call in Call::ALL {
        agree(Strings::new(DEFAULT_ALPHABET, 3).map(|text| Case::ample(call, text, Vec::new())));
    }
}

#[test]
fn edits_of_one_token() {
    agree(edits::of(Call::Program).step_by(5));
    for call in [Call::Item, Call::Stmt, Call::Expr, Call::Type] {
        agree(edits::of(call).step_by(2));
    }
}

#[test]
fn nesting_around_the_limit() {
    agree(nesting::all().step_by(2).map(|nested| nested.case));
}

#[test]
fn limits() {
    let is_long = |case: &Case| case.source.len() > 1000;
    let (long, short): (Vec<_>, Vec<_>) = edges::all().partition(is_long);
    agree(short.into_iter());
    agree(long.into_iter().step_by(2));
}

// The lists on which the editions differ, in both.
#[test]
fn closers_and_days() {
    for edition in [1, 2] {
        let closed = closers::strings(4_000).chain(closers::joined().step_by(10));
        agree(closed.map(|case| case.in_edition(edition)));
        agree(days::all().map(|case| case.in_edition(edition)));
    }
}

// The other lists, in edition 2.
#[test]
fn edition_2() {
    for (place, (kind, _)) in Kind::NAMES.into_iter().enumerate() {
        let count = match kind {
            Kind::Limits => 20,
            Kind::Words => 2_000,
            _ => 20_000,
        };
        let seed = 3000 + place as u64;
        let cases = (0..count).map(|index| case(kind, seed, index, DEFAULT_SIZE));
        agree(cases.map(|case| case.in_edition(2)));
    }
    let nested = nesting::all().map(|nested| nested.case);
    let edited = Call::ALL.into_iter().flat_map(edits::of);
    let short = edges::all().filter(|case| case.source.len() <= 1000);
    let lists = nested.step_by(5).chain(edited.step_by(7)).chain(short);
    let lists = lists.chain(token_strings(10_000));
    agree(lists.map(|case| case.in_edition(2)));
}

#[test]
fn unknown_editions() {
    let lists = edges::all().chain(nesting::all().map(|nested| nested.case));
    let editions = [0, 3, 256, 1 << 16, 1 << 31, u32::MAX].into_iter().cycle();
    let cases = lists.step_by(7).zip(editions);
    agree(cases.map(|(case, edition)| case.in_edition(edition)));
}
