//! The stored list of readings: that it is the generated one, and what stands in it.

use cases::readings::{list, sum, LONGEST, LONGEST_BUFFER};
use std::collections::BTreeSet;

const STORED: &str = include_str!("readings.txt");

// The calls, from 0, that can give each refusal number; every call gives those that are not named.
const ONLY: [(usize, &[usize]); 8] = [
    (13, &[0, 1, 2, 3]),
    (14, &[0, 1, 4]),
    (15, &[0]),
    (16, &[0]),
    (17, &[0, 1, 2, 3]),
    (18, &[0, 1, 4]),
    (19, &[0, 1]),
    (21, &[0, 1, 2]),
];

#[test]
fn the_stored_list_is_the_generated_one() {
    assert!(
        list() == STORED,
        "make the list of readings anew, see cases/src/readings.rs"
    );
}

#[test]
fn every_number_for_each_call() {
    let mut seen = BTreeSet::new();
    for line in STORED.lines() {
        let fields: Vec<&str> = line.split(' ').collect();
        assert_eq!(fields.len(), 16, "{line}");
        seen.insert((number(fields[6]), number(fields[1])));
    }
    let mut expected = BTreeSet::new();
    for answer in (0..=23).chain(28..=29) {
        let only = ONLY.iter().find(|(known, _)| *known == answer);
        let calls = only.map_or(&[0, 1, 2, 3, 4][..], |(_, calls)| calls);
        expected.extend(calls.iter().map(|call| (answer, *call)));
    }
    assert_eq!(seen, expected);
}

fn number(field: &str) -> usize {
    field.parse().unwrap()
}

#[test]
fn it_is_small() {
    assert!(STORED.len() < 200_000);
    assert!(STORED.lines().count() > 500);
    let repeats = |line: &&str| line.contains('*');
    let first = STORED.lines().position(|line| repeats(&line)).unwrap();
    assert!(STORED.lines().skip(first).all(|line| line.contains('*')));
    for line in STORED.lines().take(first) {
        let fields: Vec<&str> = line.split(' ').collect();
        assert!(fields[2].len().max(fields[3].len()) <= 2 * LONGEST);
        assert!(number(fields[4]).max(number(fields[5])) <= LONGEST_BUFFER);
    }
}

#[test]
fn sums() {
    assert_eq!(sum(&[]), 1);
    assert_eq!(sum(&[62, 0, 0]), {
        let first = 65_599 + 62u64;
        let second = 65_599 * first % 4_294_967_291;
        (65_599 * second % 4_294_967_291) as u32
    });
    assert_ne!(sum(&[0]), sum(&[]));
}
