//! The comparison finds a reader that differs, and makes its input small.

use cases::{case, closers, days, Kind, DEFAULT_SIZE};
use compare::{minimised, reader, Pair, Reader};
use oracle::{Answer, Call, Case, Outcome};

// The oracle, but one off in `found` wherever a `;` is found.
fn slip(case: &Case) -> Outcome {
    let mut outcome = oracle::read(case);
    if let Answer::Refused(refusal) = &mut outcome.answer {
        refusal.found += u32::from(refusal.found == 41);
    }
    outcome
}

fn cases(count: u64) -> impl Iterator<Item = Result<Case, String>> {
    (0..count).map(|index| Ok(case(Kind::Damage, 9, index, DEFAULT_SIZE)))
}

fn against_the_oracle(right: Box<dyn Reader>) -> Pair {
    let left = reader("oracle").unwrap();
    Pair { left, right }
}

#[test]
fn the_oracle_agrees_with_itself() {
    let mut out = Vec::new();
    let mut pair = against_the_oracle(reader("oracle").unwrap());
    let count = pair.compare(cases(500), &mut out).unwrap();
    assert_eq!((count.cases, count.disagreements), (500, 0));
    assert!(out.is_empty());
}

#[test]
fn a_slip_is_found_and_shown() {
    let mut out = Vec::new();
    let count = against_the_oracle(Box::new(slip))
        .compare(cases(500), &mut out)
        .unwrap();
    assert!(count.disagreements > 0);
    let shown = String::from_utf8(out).unwrap();
    assert!(shown.starts_with("--- disagreement in case "));
    let small = shown
        .split("--- the first one, made smaller\n")
        .nth(1)
        .unwrap();
    assert!(small.contains(";\"\ntable \"\"\nleft:\nR "), "{small}");
}

fn has_spare_words(case: &Case) -> bool {
    !case.token_words.is_multiple_of(3)
}

// The lexical oracle, but it forgets the last zero of a buffer with words to spare.
fn rubbish(case: &Case) -> Outcome {
    let mut outcome = oracle::read_lexical(case);
    if has_spare_words(case) {
        *outcome.tokens.last_mut().unwrap() = 1;
    }
    outcome
}

#[test]
fn a_word_that_is_not_zero_is_found() {
    let mut pair = Pair {
        left: reader("lexical").unwrap(),
        right: Box::new(rubbish),
    };
    let count = pair.compare(cases(500), &mut Vec::new()).unwrap();
    let spare = cases(500).filter(|case| case.as_ref().is_ok_and(has_spare_words));
    assert_eq!(count.disagreements, spare.count() as u64);
}

#[test]
fn inputs_become_small() {
    let words = oracle::table::encode(["b", "c"]);
    let case = Case::ample(Call::Stmt, b"// note\nlet a = f(1) +;".to_vec(), words);
    let small = minimised(&mut against_the_oracle(Box::new(slip)), case).unwrap();
    assert_eq!((small.source, small.words), (b";".to_vec(), Vec::new()));
}

#[test]
fn readers_that_cannot_be() {
    for name in ["nothing", "cmd:", "cmd:/no/such/program"] {
        assert!(reader(name).is_err(), "{name}");
    }
}

// A reader that knows edition 1 only is found by the lists on which the editions differ.
#[test]
fn an_edition_that_is_not_read_is_found() {
    let lists: [(Box<dyn Iterator<Item = Case>>, &str); 2] = [
        (Box::new(closers::strings(200)), "call type"),
        (Box::new(days::all()), "source \"@0000-00-00\""),
    ];
    for (list, first) in lists {
        let in_edition_1 = |case: &Case| oracle::read(&case.clone().in_edition(1));
        let mut shown = Vec::new();
        let cases = list.map(|case| Ok(case.in_edition(2)));
        let count = against_the_oracle(Box::new(in_edition_1)).compare(cases, &mut shown);
        assert!(count.unwrap().disagreements > 0);
        let shown = String::from_utf8(shown).unwrap();
        assert!(shown.contains("edition 2, call "), "{shown}");
        assert!(shown.contains(first), "{shown}");
    }
}
