//! Instructions, counted by callgrind.

use crate::sides::{bench_measured, Part, Ready, Room, Side};
use crate::texts::{self, Text};
use quanta::Edition;
use std::hint::black_box;
use std::process::Command;

const FULL: Side = Side::Proved(Room::Full);
const TIGHT: Side = Side::Proved(Room::Tight);
const NONE: Side = Side::Proved(Room::None);
const SIDES: [Side; 3] = [Side::Original, FULL, TIGHT];

// Keeps the C library from string instructions, of which callgrind counts each byte as one.
const TUNABLES: &str =
    "glibc.cpu.x86_rep_stosb_threshold=1000000000:glibc.cpu.x86_rep_movsb_threshold=1000000000";

/// Bytes behind a text by which a pass is the last: no UTF-8, or a barred character.
const STOPS: [(&str, &[u8]); 3] = [("none", b""), ("utf8", b"\xFF"), ("source", b"\xC2\xAD")];

/// Texts whose passes are told apart.
const BY_PASS: [&str; 4] = ["typical", "cjk", "crlf", "comments"];

/// What is read, and how far, by name: the lexer's texts, the calls' texts, and those as far as their tokens.
type Reading = (&'static str, Part, fn(&str, Edition) -> Option<Text>);
const LEXER: Reading = ("lexer", Part::Tokens, |name, _| texts::text(name));
const CALLS: Reading = ("calls", Part::Whole, texts::call_text);
const TOKENS: Reading = ("tokens", Part::Tokens, texts::call_text);

/// Makes a text ready and calls one side on it once.
pub fn once(
    what: &str,
    name: &str,
    side: &str,
    stop: &str,
    edition: Edition,
) -> Result<(), String> {
    let readings = [LEXER, CALLS, TOKENS];
    let reading = readings.into_iter().find(|(known, ..)| *known == what);
    let (_, part, text) = reading.ok_or(format!("nothing to count in {what}"))?;
    let mut text = text(name, edition).ok_or(format!("unknown text {name}"))?;
    let side = Side::from_name(side).ok_or(format!("unknown side {side}"))?;
    let stop = STOPS.iter().find(|(known, _)| *known == stop);
    let (_, behind) = stop.ok_or("--stop needs none, utf8 or source")?;
    text.source.extend_from_slice(behind);
    drop(black_box(bench_measured(&mut Ready::new(
        part, side, &text,
    ))));
    Ok(())
}

/// Prints the lexer's instructions per byte of each text, then of the passes of some.
pub fn print_lexer() -> Result<(), String> {
    heading();
    println!("text        original      full factor     tight factor");
    let mut by_pass = Vec::new();
    for name in texts::NAMES {
        let counts = of_sides(LEXER, name, Edition::One)?;
        println!("{name:10} {}", beside(counts));
        if BY_PASS.contains(&name) {
            by_pass.push((name, counts));
        }
    }
    print_words()?;
    println!("\nby pass, as differences of counts: refused by 3, by 5, room for none, tight, full");
    println!("                  original |                   proved");
    println!("text        source  tokens |   utf8  source  tokens records   zeros");
    for (name, counts) in by_pass {
        print_passes(name, counts)?;
    }
    Ok(())
}

/// Prints the five calls' instructions per byte, those of the parsing alone, and how they grow; in edition 2 also
/// those of the texts on which the editions differ.
pub fn print_calls(edition: Edition) -> Result<(), String> {
    heading();
    println!("text        original      full factor     tight factor");
    let mut whole = Vec::new();
    for name in texts::CALL_NAMES {
        let counts = of_sides(CALLS, name, edition)?;
        println!("{name:10} {}", beside(counts));
        whole.push((name, counts));
    }
    println!("\nparsing alone: a call less its reading of the tokens");
    println!("text        original      full factor     tight factor");
    for (name, counts) in whole {
        let tokens = of_sides(TOKENS, name, edition)?;
        let alone = [0, 1, 2].map(|side| counts[side] - tokens[side]);
        println!("{name:10} {}", beside(alone));
    }
    println!("\nthe same kind of program in several lengths");
    println!("text        original      full factor     tight factor");
    for (name, _) in texts::GROWING {
        println!("{name:10} {}", beside(of_sides(CALLS, name, edition)?));
    }
    if edition == Edition::Two {
        println!("\n{}", texts::EDITION_2_HEADING);
        println!("text        original      full factor     tight factor");
        for name in texts::EDITION_2_NAMES {
            println!("{name:10} {}", beside(of_sides(CALLS, name, edition)?));
        }
    }
    Ok(())
}

fn heading() {
    println!("instructions per byte (callgrind); a factor is proved over original");
}

fn beside([original, full, tight]: [f64; 3]) -> String {
    let factors = [full / original, tight / original];
    format!(
        "{original:9.2} {full:9.2} {:6.2} {tight:9.2} {:6.2}",
        factors[0], factors[1]
    )
}

fn print_words() -> Result<(), String> {
    let typical = counted(LEXER, "typical", TIGHT, "none")?;
    println!("\nwords against tables, tight; cost is over `typical`");
    println!("words              tight   cost");
    for text in texts::word_texts() {
        let tight = counted(LEXER, text.name, TIGHT, "none")?;
        println!("{:14} {tight:9.2} {:6.2}", text.name, tight / typical);
    }
    Ok(())
}

fn print_passes(name: &str, [original, full, tight]: [f64; 3]) -> Result<(), String> {
    let checked = counted(LEXER, name, Side::Original, "source")?;
    let utf8 = counted(LEXER, name, NONE, "utf8")?;
    let source = counted(LEXER, name, NONE, "source")?;
    let none = counted(LEXER, name, NONE, "none")?;
    println!(
        "{name:10} {checked:7.2} {:7.2} |{utf8:7.2} {:7.2} {:7.2} {:7.2} {:7.2}",
        original - checked,
        source - utf8,
        none - source,
        tight - none,
        full - tight
    );
    Ok(())
}

fn of_sides(reading: Reading, name: &str, edition: Edition) -> Result<[f64; 3], String> {
    let mut counts = [0.0; 3];
    for (count, side) in counts.iter_mut().zip(SIDES) {
        *count = counted_in(edition, reading, name, side, "none")?;
    }
    Ok(counts)
}

fn counted(reading: Reading, name: &str, side: Side, stop: &str) -> Result<f64, String> {
    counted_in(Edition::One, reading, name, side, stop)
}

// Instructions per byte of one call, counted in a run of its own.
fn counted_in(
    edition: Edition,
    reading: Reading,
    name: &str,
    side: Side,
    stop: &str,
) -> Result<f64, String> {
    let (what, _, text) = reading;
    let out = std::env::temp_dir().join(format!("bench-callgrind-{}", std::process::id()));
    let this = std::env::current_exe().map_err(|error| format!("no own path: {error}"))?;
    let ran = Command::new("valgrind")
        .env("GLIBC_TUNABLES", TUNABLES)
        .args(["--tool=callgrind", "--toggle-collect=bench_measured"])
        .arg(format!("--callgrind-out-file={}", out.display()))
        .arg(this)
        .args(["count", what, name, side.name(), "--stop", stop])
        .args(["--edition", &edition.to_string()])
        .output();
    let ran = ran.map_err(|error| format!("valgrind does not start: {error}"))?;
    if !ran.status.success() {
        return Err(format!(
            "valgrind failed: {}",
            String::from_utf8_lossy(&ran.stderr)
        ));
    }
    let written = std::fs::read_to_string(&out).map_err(|error| format!("no counts: {error}"))?;
    let _ = std::fs::remove_file(&out);
    let total = written
        .lines()
        .find_map(|line| line.strip_prefix("totals: "))
        .and_then(|total| total.trim().parse::<f64>().ok())
        .ok_or("no line `totals:` in callgrind's file")?;
    let text = text(name, edition).expect("the name is listed");
    let bytes = text.source.len();
    Ok(total / bytes as f64)
}
