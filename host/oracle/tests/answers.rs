//! Replays the stored list of cases and answers byte for byte.
//!
//! The list is made, in the host folder, by
//! `cargo run --release --offline -p cases -- --stored > oracle/tests/answers.frames`.

use oracle::frame::{self, Frames};

const STORED: &[u8] = include_bytes!("answers.frames");

#[test]
fn stored_answers() {
    let mut frames = Frames::new(STORED);
    let mut count = 0;
    while let Some(case) = frames.next_case().unwrap() {
        let mut expected = Vec::new();
        frames.next_answer(&mut expected).unwrap();
        let mut got = Vec::new();
        frame::write_answer(&oracle::read(&case), &mut got);
        let texts = [&got, &expected].map(|bytes| String::from_utf8_lossy(bytes));
        assert_eq!(texts[0], texts[1], "{case:?}");
        count += 1;
    }
    assert!(count > 400, "only {count} cases");
}
