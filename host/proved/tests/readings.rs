//! The stored list of readings, replayed by the proved calls as the program `readings` does.

use quanta::{raw, Call};

const STORED: &str = include_str!("../../cases/tests/readings.txt");
const CALLS: [Call; 5] = [
    Call::Program,
    Call::Item,
    Call::Stmt,
    Call::Expr,
    Call::Type,
];
const RUBBISH: u32 = 0xA5A5_5A5A;

fn number(field: &str) -> usize {
    field.parse().unwrap()
}

fn bytes(field: &str) -> Vec<u8> {
    let (hex, times) = field.split_once('*').unwrap_or((field, "1"));
    let digits = if hex == "-" { "" } else { hex };
    let byte = |at: usize| u8::from_str_radix(&digits[at..at + 2], 16).unwrap();
    let once: Vec<u8> = (0..digits.len()).step_by(2).map(byte).collect();
    once.repeat(number(times))
}

fn sum(words: &[u32]) -> u64 {
    let step = |sum: u64, word: &u32| (65_599 * sum + u64::from(*word)) % 4_294_967_291;
    words.iter().fold(1, step)
}

#[test]
fn every_reading() {
    for line in STORED.lines() {
        let fields: Vec<&str> = line.split(' ').collect();
        let mut tokens = vec![RUBBISH; number(fields[4])];
        let mut tree = vec![RUBBISH; number(fields[5])];
        let (table, source) = (bytes(fields[2]), bytes(fields[3]));
        let (edition, call) = (fields[0].parse().unwrap(), CALLS[number(fields[1])]);
        let given = raw::read(edition, call, &source, &table, &mut tokens, &mut tree);
        let answer = [
            given.number,
            given.start,
            given.end,
            given.wanted,
            given.found,
            given.need,
            given.tokens,
            given.records,
        ];
        let sums = [sum(&tokens), sum(&tree)];
        let got = answer.into_iter().map(u64::from).chain(sums);
        let got: Vec<String> = got.map(|number| number.to_string()).collect();
        assert_eq!(got, fields[6..], "{line}");
    }
}
