//! The answers to a fixed stream of mixed cases: their digest, what occurs in them, and what holds of all.

use cases::{case, stored, Kind, DEFAULT_SIZE};
use oracle::{frame, Answer, Case, Outcome, Refusal, TOKEN_WORDS, TREE_WORDS};

const SEED: u64 = 2024;
const COUNT: u64 = 20_000;
// FNV-1a 64 of the stream's whole answers. A change of it is a change of the generator or of an answer.
const DIGEST: u64 = 0x7A55_AAC1_2187_E982;

fn outcomes(count: u64) -> impl Iterator<Item = (Case, Outcome)> {
    outcomes_of(Kind::All, count)
}

fn outcomes_of(kind: Kind, count: u64) -> impl Iterator<Item = (Case, Outcome)> {
    (0..count).map(move |index| {
        let case = case(kind, SEED, index, DEFAULT_SIZE);
        let outcome = oracle::read(&case);
        (case, outcome)
    })
}

fn fnv1a(digest: u64, bytes: &[u8]) -> u64 {
    let step =
        |digest: u64, byte: &u8| (digest ^ u64::from(*byte)).wrapping_mul(0x0000_0100_0000_01B3);
    bytes.iter().fold(digest, step)
}

#[test]
fn digest_of_a_fixed_stream() {
    assert_eq!(
        fnv1a(0xCBF2_9CE4_8422_2325, b"foobar"),
        0x8594_4171_F739_67E8
    );
    let mut digest = 0xCBF2_9CE4_8422_2325;
    let mut answer = Vec::new();
    for (_, outcome) in outcomes(COUNT) {
        answer.clear();
        frame::write_answer(&outcome, &mut answer);
        digest = fnv1a(digest, &answer);
    }
    assert_eq!(digest, DIGEST, "the digest is {digest:#018X}");
}

/// The token kinds that may be the own token of each tree kind from 1; flags choose among operators.
#[rustfmt::skip]
const OWN_KINDS: [&[u32]; 40] = [
    &[62], &[33], &[5], &[17], &[13], &[8], &[14], &[15], &[6], &[42], &[42], &[29], &[30], &[28], &[26],
    &[27], &[31], &[32], &[24], &[1, 23], &[1], &[7], &[18], &[16], &[44, 45, 46], &[41], &[1, 23], &[2],
    &[3], &[4], &[9], &[10], &[11], &[12], &[34], &[35], &[58, 48],
    &[60, 59, 56, 57, 52, 53, 54, 55, 47, 48, 49, 50, 51, 61], &[43], &[38],
];

#[derive(Default)]
struct Seen {
    verdicts: [u32; 30],
    tokens: Vec<u32>,
    nodes: Vec<u32>,
    calls: [u32; 5],
}

impl Seen {
    fn add(&mut self, case: &Case, outcome: &Outcome) {
        let number = match outcome.answer {
            Answer::Accepted { .. } => 0,
            Answer::Refused(refusal) => refusal.number,
        };
        self.verdicts[number as usize] += 1;
        self.calls[case.call as usize] += 1;
        self.tokens.resize(63, 0);
        self.nodes.resize(41, 0);
        for record in outcome.tokens.chunks_exact(TOKEN_WORDS) {
            self.tokens[record[0] as usize] += 1;
        }
        for record in outcome.tree.chunks_exact(TREE_WORDS) {
            self.nodes[record[0] as usize] += 1;
        }
    }

    // Every answer of edition 1, call, tree kind and token kind was seen.
    fn assert_all(&self) {
        let all = [
            &self.verdicts[..24],
            &self.calls,
            &self.nodes[1..],
            &self.tokens[1..],
        ];
        for counts in all {
            assert!(counts.iter().all(|count| *count > 0), "{counts:?}");
        }
    }
}

#[test]
fn every_number_and_kind_occurs() {
    let mut seen = Seen::default();
    for (case, outcome) in outcomes(COUNT) {
        seen.add(&case, &outcome);
    }
    println!(
        "accepted, then refusals 1 to 23: {:?}",
        &seen.verdicts[..24]
    );
    println!("calls: {:?}", seen.calls);
    println!("tree kinds from 1: {:?}", &seen.nodes[1..]);
    println!("token kinds from 1: {:?}", &seen.tokens[1..]);
    seen.assert_all();
}

#[test]
fn stored_list_is_the_generated_one() {
    let stored = include_bytes!("../../oracle/tests/answers.frames");
    assert!(
        stored::list() == stored,
        "make the stored list anew, see oracle/tests/answers.rs"
    );
}

// Refusal 2 takes a source too long to store.
#[test]
fn stored_list_holds_every_number_and_kind() {
    let list = stored::list();
    let mut frames = frame::Frames::new(&list[..]);
    let mut seen = Seen::default();
    while let Some(case) = frames.next_case().unwrap() {
        frames.next_answer(&mut Vec::new()).unwrap();
        seen.add(&case, &oracle::read(&case));
    }
    seen.verdicts[2] = 1;
    seen.assert_all();
    assert!(seen.verdicts[28..].iter().all(|count| *count > 0));
}

#[test]
fn facts_of_every_outcome() {
    for (case, outcome) in outcomes(6000).chain(outcomes_of(Kind::Editions, 6000)) {
        let text = String::from_utf8_lossy(&case.source);
        let tokens = standing(&outcome.tokens, TOKEN_WORDS);
        assert!(tokens.len() <= case.source.len() + 1, "{text}");
        assert!(
            tokens.windows(2).all(|pair| pair[0][2] <= pair[1][1]),
            "token order in {text}"
        );
        if let Answer::Accepted {
            tokens: t,
            records: r,
        } = outcome.answer
        {
            let tree = standing(&outcome.tree, TREE_WORDS);
            assert_eq!(
                (tokens.len(), tree.len()),
                (t as usize, r as usize),
                "{text}"
            );
            assert!(tree.len() <= tokens.len(), "{text}");
            check_own_tokens(&tree, &tokens, &text);
            check_spans(&tree, &tokens, &text);
        }
    }
}

// Whatever both editions accept has the same records; what edition 1 accepts edition 2 accepts, unless some date is
// no day.
#[test]
fn editions_together() {
    let mut counts = [0; 4];
    for index in 0..20_000 {
        let case = case(Kind::Editions, SEED, index, DEFAULT_SIZE);
        let text = String::from_utf8_lossy(&case.source).into_owned();
        let read = |edition| oracle::read(&case.clone().in_edition(edition));
        let (one, two) = (read(1), read(2));
        let sort = match (one.answer, two.answer) {
            (Answer::Accepted { .. }, Answer::Accepted { .. }) => {
                assert_eq!(one, two, "{text}");
                0
            }
            (Answer::Accepted { .. }, Answer::Refused(refusal)) => {
                assert_eq!(refusal.number, 28, "{text}");
                assert!(case.source[refusal.start as usize..].starts_with(b"@"));
                1
            }
            (Answer::Refused(refusal), Answer::Accepted { .. }) => {
                let Refusal { wanted, found, .. } = refusal;
                assert_eq!((refusal.number, wanted, found), (12, 53, 61), "{text}");
                2
            }
            (Answer::Refused(_), Answer::Refused(_)) => 3,
        };
        counts[sort] += 1;
    }
    println!("accepted by both, by 1, by 2, by none: {counts:?}");
    assert!(counts.iter().all(|count| *count > 400), "{counts:?}");
}

// The lexical part of an answer is its refusal up to 11, or the tokens alone.
#[test]
fn lexical_parts() {
    for (case, outcome) in outcomes(3000) {
        let part = oracle::read_lexical(&case);
        assert_eq!(part.tokens, outcome.tokens);
        assert!(part.tree.is_empty());
        match (part.answer, outcome.answer) {
            (Answer::Refused(part), whole) => {
                assert!((1..=11).contains(&part.number));
                assert_eq!(Answer::Refused(part), whole);
            }
            (Answer::Accepted { tokens, records }, Answer::Refused(refusal)) => {
                let count = standing(&outcome.tokens, TOKEN_WORDS).len();
                assert_eq!((tokens as usize, records), (count, 0));
                assert!(refusal.number > 11);
            }
            (Answer::Accepted { tokens, records }, Answer::Accepted { tokens: whole, .. }) => {
                assert_eq!((tokens, records), (whole, 0));
            }
        }
    }
}

fn standing(words: &[u32], width: usize) -> Vec<&[u32]> {
    words
        .chunks_exact(width)
        .take_while(|record| record[0] != 0)
        .collect()
}

// No two records share an own token; it is of a fit kind and in the record's span, but for the program's Eof.
fn check_own_tokens(tree: &[&[u32]], tokens: &[&[u32]], text: &str) {
    let mut owned = vec![false; tokens.len()];
    for record in tree {
        let own = record[2] as usize;
        assert!(!owned[own], "token {own} is owned twice in {text}");
        owned[own] = true;
        let inside = record[3] <= tokens[own][1] && tokens[own][2] <= record[4];
        assert!(inside || record[0] == 1, "{record:?} in {text}");
        let fit = OWN_KINDS[record[0] as usize - 1];
        let is_operator = matches!(record[0], 25 | 37 | 38);
        let fit = if is_operator {
            &fit[record[1] as usize..][..1]
        } else {
            fit
        };
        assert!(fit.contains(&tokens[own][0]), "{record:?} in {text}");
    }
}

// Children lie in their parent, in order, its operator, dot or parenthesis behind the first; one record is left.
fn check_spans(tree: &[&[u32]], tokens: &[&[u32]], text: &str) {
    let mut open: Vec<&[u32]> = Vec::new();
    for record in tree {
        let children = open.split_off(open.len() - record[5] as usize);
        let ordered = children.windows(2).all(|pair| pair[0][4] <= pair[1][3]);
        assert!(ordered, "{children:?} in {text}");
        let inside = |child: &&[u32]| record[3] <= child[3] && child[4] <= record[4];
        assert!(
            children.iter().all(inside),
            "{record:?} over {children:?} in {text}"
        );
        if matches!(record[0], 25 | 38 | 39 | 40) {
            let own = tokens[record[2] as usize];
            let next = children.get(1).map_or(record[4], |child| child[3]);
            assert!(
                children[0][4] <= own[1] && own[2] <= next,
                "{record:?} in {text}"
            );
        }
        open.push(record);
    }
    assert_eq!(open.len(), 1, "{text}");
}
