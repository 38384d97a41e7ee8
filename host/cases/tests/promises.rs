//! What the generator promises: grammatical texts, exact measures, the same bytes for the same seed.

use cases::exhaustive::{token_strings, Strings};
use cases::{
    case, closers, days, edges, edits, measured_case, nesting, scalars, Kind, DEFAULT_SIZE,
};
use oracle::{frame, Answer, Call, Case, TOKEN_WORDS, TREE_WORDS};
use std::collections::BTreeSet;

fn number(case: &Case) -> u32 {
    match oracle::read(case).answer {
        Answer::Accepted { .. } => 0,
        Answer::Refused(refusal) => refusal.number,
    }
}

#[test]
fn grammatical_texts_are_accepted() {
    for size in [1, DEFAULT_SIZE, 8] {
        for index in 0..2000 {
            let case = case(Kind::Grammar, 11, index, size);
            assert_eq!(
                number(&case),
                0,
                "{:?}",
                String::from_utf8_lossy(&case.source)
            );
        }
    }
}

#[test]
fn measures_are_exact() {
    let mut at_the_limit = [0; 2];
    for index in 0..20_000 {
        let (case, measure) = measured_case(12, index);
        let expected = if measure <= 64 { 0 } else { 20 };
        let text = String::from_utf8_lossy(&case.source);
        assert_eq!(
            number(&case),
            expected,
            "measure {measure}, {} {text:?}",
            case.call.name()
        );
        if let 64 | 65 = measure {
            at_the_limit[measure - 64] += 1;
        }
    }
    assert!(
        at_the_limit.iter().all(|count| *count > 2000),
        "{at_the_limit:?}"
    );
}

#[test]
fn depth_cases_are_the_measured_ones() {
    for index in 0..50 {
        assert_eq!(
            case(Kind::Depth, 5, index, DEFAULT_SIZE),
            measured_case(5, index).0
        );
    }
}

fn stream(kind: Kind, seed: u64, count: u64) -> Vec<u8> {
    let mut out = Vec::new();
    for index in 0..count {
        frame::write_case(&case(kind, seed, index, DEFAULT_SIZE), &mut out).unwrap();
    }
    out
}

#[test]
fn the_seed_decides() {
    for (kind, name) in Kind::NAMES {
        let count = if kind == Kind::Limits { 2 } else { 300 };
        let first = stream(kind, 1, count);
        assert!(
            first == stream(kind, 1, count),
            "{name} changes from run to run"
        );
        assert!(first != stream(kind, 2, count), "{name} ignores the seed");
    }
}

#[test]
fn strings_are_all_there() {
    let strings: Vec<Vec<u8>> = Strings::new("ab", 2).collect();
    let expected: [&[u8]; 7] = [b"", b"a", b"b", b"aa", b"ab", b"ba", b"bb"];
    assert_eq!(strings, expected);
    assert_eq!(Strings::new("abc", 5).count(), 1 + 3 + 9 + 27 + 81 + 243);
    assert_eq!(Strings::new("", 5).count(), 1);
}

#[test]
fn scalars_share_a_source_where_none_is_refused() {
    let sources = |scalars: &'static str| -> Vec<String> {
        scalars::of(move || scalars.chars())
            .map(|case| String::from_utf8(case.source).unwrap())
            .collect()
    };
    let shared = ["\"z\" ", "\"ö\" \"一\" ", "//z\na ", "//ö\na //一\na "];
    assert_eq!(sources("zö一")[..4], shared);
    let alone = ["\"ö\" ", "\"\u{200B}\" ", "//ö\na ", "//\u{200B}\na "];
    assert_eq!(sources("ö\u{200B}")[..4], alone);
    assert_eq!(sources("ö\u{200B}")[4..], ["öa", "\u{200B}a"]);
}

// The original bars exactly the characters that document 01 lists.
#[test]
fn barred_scalars() {
    #[rustfmt::skip]
    let listed = [
        0x85..=0x85, 0xAD..=0xAD, 0x61C..=0x61C, 0x180E..=0x180E, 0x200B..=0x200F, 0x2028..=0x202E,
        0x2060..=0x2064, 0x2066..=0x206F, 0xFEFF..=0xFEFF, 0xFFF9..=0xFFFB,
    ];
    let is_barred = |scalar: &char| {
        let source = format!("\"{scalar}\"").into_bytes();
        let outcome = oracle::read_lexical(&Case::ample(Call::Expr, source, Vec::new()));
        matches!(outcome.answer, Answer::Refused(refusal) if refusal.number == 5)
    };
    let barred = ('\0'..=char::MAX).filter(is_barred).map(u32::from);
    assert!(barred.eq(listed.into_iter().flatten()));
}

#[test]
fn every_call_occurs() {
    for (kind, name) in Kind::NAMES {
        let count = if kind == Kind::Limits { 60 } else { 300 };
        for call in Call::ALL {
            let occurs = (0..count).any(|index| case(kind, 3, index, 1).call == call);
            assert!(occurs, "no {} call among {name}", call.name());
        }
    }
}

// Every kind of token and record, and every flag of each kind of record.
#[test]
fn the_program_uses_every_production() {
    let outcome = oracle::read(&Case::ample(Call::Program, edits::EVERY.into(), Vec::new()));
    let tokens = outcome.tokens.chunks_exact(TOKEN_WORDS);
    let kinds: BTreeSet<u32> = tokens.map(|token| token[0]).collect();
    assert_eq!(kinds, (0..=62).collect());
    let records = outcome.tree.chunks_exact(TREE_WORDS);
    let mut flags: BTreeSet<(u32, u32)> = records.map(|record| (record[0], record[1])).collect();
    flags.remove(&(0, 0));
    let flags_of = |kind| match kind {
        10 | 11 | 19 => 4,
        25 => 3,
        37 => 2,
        38 => 14,
        _ => 1,
    };
    let all = (1..=40).flat_map(|kind| (0..flags_of(kind)).map(move |flag| (kind, flag)));
    assert_eq!(flags, all.collect());
}

#[test]
fn nested_texts_have_their_measure() {
    for nested in nesting::all().step_by(3) {
        let text = String::from_utf8_lossy(&nested.case.source);
        match number(&nested.case) {
            20 => assert!(nested.measure > 64, "{} {text}", nested.measure),
            0 => assert!(nested.measure <= 64, "{} {text}", nested.measure),
            number => assert!(number == 21 && nested.is_target, "{number} {text}"),
        }
    }
}

#[test]
fn each_edit_is_there() {
    let parts = edits::parts(Call::Type);
    assert!(parts.contains(&vec!["Order", "<", "1", "of", "2", ">"]));
    let texts: Vec<_> = edits::of(Call::Type).map(|case| case.source).collect();
    for text in [
        "Amount",
        "",
        "Amount Amount",
        "; Amount",
        ";",
        "Order 1 < of 2 >",
        "Order < 1 of 2",
        "Order < 1 o 2 >",
        "Order < 1 oz 2 >",
        "order < 1 of 2 >",
    ] {
        let there = texts.iter().any(|known| known == text.as_bytes());
        assert_eq!(there, text != "Amount Amount", "{text}");
    }
    for call in Call::ALL {
        assert!(!edits::parts(call).is_empty());
    }
}

#[test]
fn strings_of_tokens() {
    let strings: Vec<Vec<u8>> = Strings::of_tokens("a >>", 2).collect();
    let expected: [&[u8]; 7] = [b"", b"a", b">>", b"a a", b"a >>", b">> a", b">> >>"];
    assert_eq!(strings, expected);
    let accepted = |call| {
        let of_call = token_strings(2000).filter(|case| case.call == call);
        of_call.filter(|case| number(case) == 0).count()
    };
    for call in Call::ALL {
        assert!(accepted(call) > 0, "{}", call.name());
    }
}

#[test]
fn edges_are_on_both_sides() {
    let mut seen = BTreeSet::new();
    for case in edges::all() {
        seen.insert((case.call.name(), number(&case)));
    }
    for call in Call::ALL {
        for wanted in [0, 1, 2, 11, 23] {
            assert!(seen.contains(&(call.name(), wanted)), "{wanted}");
        }
    }
}

#[test]
fn tight_strings_of_tokens() {
    let strings: Vec<Vec<u8>> = Strings::of_tight_tokens("a >>", 2).collect();
    let expected: [&[u8]; 7] = [b"", b"a", b">>", b"aa", b"a>>", b">>a", b">>>>"];
    assert_eq!(strings, expected);
}

// In edition 2 each place has accepted types that edition 1 refuses, and refusals at a second closer.
#[test]
fn closers_are_tried_at_each_place() {
    let mut seen = BTreeSet::new();
    for case in closers::strings(3000).chain(closers::joined().step_by(25)) {
        let (one, two) = (number(&case), number(&case.clone().in_edition(2)));
        let front: &[u8] = match case.source.first_chunk() {
            Some(front @ (b"state{" | b"event ")) => front,
            _ => b"",
        };
        seen.insert((case.call.name(), front.to_vec(), one, two));
    }
    for (call, front) in [("type", &b""[..]), ("item", b"state{"), ("item", b"event ")] {
        let refused = if call == "type" { 22 } else { 12 };
        for numbers in [(0, 0), (12, 0), (12, refused), (18, 18)] {
            let wanted = (call, front.to_vec(), numbers.0, numbers.1);
            assert!(seen.contains(&wanted), "{wanted:?}");
        }
    }
    assert!(seen
        .iter()
        .any(|(call, _, one, two)| (*call, *one, *two) == ("program", 12, 0)));
    assert!(seen.iter().any(|(_, _, one, two)| (*one, *two) == (12, 20)));
}

// As many days as these years have; every year has three dates at its February's end.
#[test]
fn days_are_on_both_sides() {
    let cases: Vec<Case> = days::all().collect();
    let around = days::YEARS.len() * 14 * 33;
    assert_eq!(cases.len(), around + 10_000 * 3 + 100 * 100);
    assert!(cases.iter().step_by(37).all(|case| number(case) == 0));
    let days = |cases: &[Case]| {
        let accepted = cases
            .iter()
            .filter(|case| number(&(*case).clone().in_edition(2)) == 0);
        accepted.count()
    };
    assert_eq!(days(&cases[..around]), 4 * 366 + 3 * 365);
    let leap_years = 25 * 97;
    assert_eq!(days(&cases[around..around + 30_000]), 10_000 + leap_years);
    assert_eq!(days(&cases[around + 30_000..]), 366);
}
