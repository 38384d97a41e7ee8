//! Times of both sides, taken in turns in one run.

use crate::sides::{bench_measured, records_of, tokens_of, Part, Ready, Room, Side};
use crate::texts::{self, Text};
use quanta::Edition;
use std::hint::black_box;

const TIGHT: Side = Side::Proved(Room::Tight);
const FULL: Side = Side::Proved(Room::Full);
const SIDES: [Side; 3] = [Side::Original, FULL, TIGHT];

// A round takes a short text so often that its calls read about so many bytes.
const ROUND: usize = 1 << 18;

/// Prints the lexer's table of texts, then that of word tables.
pub fn print_lexer(rounds: usize) {
    heading(rounds);
    println!("text           bytes   tokens  original      full factor     tight factor");
    let mut typical = 0.0;
    for name in texts::NAMES {
        let text = texts::text(name).expect("the name is listed");
        let speeds = seconds(Part::Tokens, &text, rounds, SIDES).map(|time| speed(&text, time));
        println!(
            "{name:10} {:9} {:8} {}",
            text.source.len(),
            tokens_of(&text),
            beside(speeds)
        );
        if name == "typical" {
            typical = speeds[2];
        }
    }
    println!(
        "\nwords against tables, tight; cost is a byte's time over that of a byte of `typical`"
    );
    println!("words              bytes   tokens    table     tight   cost");
    for text in texts::word_texts() {
        let [time] = seconds(Part::Tokens, &text, rounds, [TIGHT]);
        let tight = speed(&text, time);
        println!(
            "{:14} {:9} {:8} {:8} {tight:9.1} {:6.2}",
            text.name,
            text.source.len(),
            tokens_of(&text),
            text.words.len(),
            typical / tight
        );
    }
}

/// Prints the five calls' table of texts, what the parsing alone takes, and how the time grows; in edition 2 also
/// the texts on which the editions differ.
pub fn print_calls(rounds: usize, edition: Edition) {
    heading(rounds);
    println!("text       call        bytes   tokens  records  original      full factor     tight factor");
    let mut alone = Vec::new();
    let text_of = |name| texts::call_text(name, edition).expect("the name is listed");
    for name in texts::CALL_NAMES {
        let text = text_of(name);
        let whole = seconds(Part::Whole, &text, rounds, SIDES);
        let tokens = seconds(Part::Tokens, &text, rounds, SIDES);
        print_call(&text, whole);
        alone.push((name, [0, 1, 2].map(|side| whole[side] - tokens[side]), text));
    }
    println!("\nparsing alone: a call less its reading of the tokens");
    println!("text        original      full factor     tight factor");
    for (name, times, text) in alone {
        let speeds = times.map(|time| speed(&text, time));
        println!("{name:10} {}", beside(speeds));
    }
    println!("\nthe same kind of program in several lengths");
    println!("text       call        bytes   tokens  records  original      full factor     tight factor");
    for (name, _) in texts::GROWING {
        let text = text_of(name);
        print_call(&text, seconds(Part::Whole, &text, rounds, SIDES));
    }
    if edition == Edition::Two {
        println!("\n{}", texts::EDITION_2_HEADING);
        println!("text       call        bytes   tokens  records  original      full factor     tight factor");
        for name in texts::EDITION_2_NAMES {
            let text = text_of(name);
            print_call(&text, seconds(Part::Whole, &text, rounds, SIDES));
        }
    }
}

fn print_call(text: &Text, times: [f64; 3]) {
    println!(
        "{:10} {:7} {:9} {:8} {:8} {}",
        text.name,
        text.call.name(),
        text.source.len(),
        tokens_of(text),
        records_of(Part::Whole, text),
        beside(times.map(|time| speed(text, time)))
    );
}

fn heading(rounds: usize) {
    println!(
        "MB/s (10^6 bytes a second of CPU time), median of {rounds} rounds; a factor is proved over original"
    );
}

fn beside([original, full, tight]: [f64; 3]) -> String {
    let factors = [full / original, tight / original];
    format!(
        "{original:9.1} {full:9.1} {:6.2} {tight:9.1} {:6.2}",
        factors[0], factors[1]
    )
}

fn speed(text: &Text, seconds: f64) -> f64 {
    text.source.len() as f64 / seconds / 1e6
}

// The median time of each side, the sides taking turns; they must agree.
fn seconds<const N: usize>(part: Part, text: &Text, rounds: usize, sides: [Side; N]) -> [f64; N] {
    let mut ready = sides.map(|side| Ready::new(part, side, text));
    let mut times = [const { Vec::new() }; N];
    let mut verdict = None;
    let calls = (ROUND / text.source.len()).max(1);
    for _ in 0..rounds {
        for (ready, times) in ready.iter_mut().zip(&mut times) {
            let mut given = Vec::with_capacity(calls);
            ready.touch();
            let start = cpu_seconds();
            for _ in 0..calls {
                given.push(black_box(bench_measured(ready)));
            }
            times.push((cpu_seconds() - start) / calls as f64);
            for given in given {
                assert_eq!(*verdict.get_or_insert(given.verdict()), given.verdict());
            }
        }
    }
    times.map(|mut times| {
        times.sort_by(f64::total_cmp);
        times[rounds / 2]
    })
}

// The time that this thread has run, which other programs on the machine do not lengthen.
fn cpu_seconds() -> f64 {
    const THREAD_CPUTIME: i32 = 3;
    extern "C" {
        fn clock_gettime(clock: i32, time: *mut [i64; 2]) -> i32;
    }
    let mut time = [0; 2];
    // SAFETY: on 64-bit Linux a timespec is two 64-bit numbers.
    let status = unsafe { clock_gettime(THREAD_CPUTIME, &mut time) };
    assert_eq!(status, 0, "no clock of this thread");
    time[0] as f64 + time[1] as f64 / 1e9
}
