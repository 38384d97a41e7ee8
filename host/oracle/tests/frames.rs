//! Frames: what is written reads back, and damage is told with its place.

use oracle::frame::{self, Frames};
use oracle::{Answer, Call, Case, Outcome, Refusal};

fn framed(case: &Case) -> Vec<u8> {
    let mut out = Vec::new();
    frame::write_case(case, &mut out).unwrap();
    out
}

fn example() -> Case {
    Case {
        edition: 1,
        call: Call::Stmt,
        source: b"a\n\xFF".to_vec(),
        words: b"FW\x01a".to_vec(),
        token_words: 10,
        tree_words: 7,
    }
}

#[test]
fn cases_read_back() {
    let other = Case::ample(Call::Type, Vec::new(), Vec::new());
    let mut stream = framed(&example());
    assert_eq!(stream, b"C stmt 3 4 10 7\na\n\xFFFW\x01a\n");
    stream.extend(framed(&other));
    let mut frames = Frames::new(&stream[..]);
    assert_eq!(frames.next_case(), Ok(Some(example())));
    assert_eq!(frames.next_case(), Ok(Some(other)));
    assert_eq!(frames.next_case(), Ok(None));
}

#[test]
fn editions_read_back() {
    for edition in [0, 2, 3, u32::MAX] {
        let case = example().in_edition(edition);
        let stream = framed(&case);
        assert!(stream.starts_with(format!("C {edition} stmt 3 4 10 7\n").as_bytes()));
        assert_eq!(Frames::new(&stream[..]).next_case(), Ok(Some(case)));
    }
    let stream = b"C 1 stmt 3 4 10 7\na\n\xFFFW\x01a\n";
    let read = Frames::new(&stream[..]).next_case();
    assert_eq!(read, Ok(Some(example())));
}

#[test]
fn bad_cases_are_told_with_their_place() {
    let rows: [(&[u8], &str); 11] = [
        (b"X", "byte 0: no case header"),
        (b"C 2 3 4 10 7\nabc", "byte 0: no case header"),
        (b"C 4294967296 stmt 3 4 10 7\nabc", "byte 0: no case header"),
        (b"C stmt 3 4 10\nabc", "byte 0: no case header"),
        (b"C stmt 3 4 10 7 8\nabc", "byte 0: no case header"),
        (b"C word 3 0 10 7\nabc\n", "byte 0: no case header"),
        (b"C stmt -3 0 10 7\nabc\n", "byte 0: no case header"),
        (
            b"C stmt 99999999999 0 10 7\nabc\n",
            "byte 0: no case header",
        ),
        (
            b"C stmt 3 0 10 7\nab",
            "byte 18: the stream ends within the source",
        ),
        (
            b"C stmt 3 4 10 7\nabcFW",
            "byte 21: the stream ends within the word table",
        ),
        (b"C stmt 3 0 10 7\nabcX", "byte 19: no LF behind the case"),
    ];
    for (stream, message) in rows {
        let error = Frames::new(stream).next_case().unwrap_err();
        assert!(
            error.starts_with(&format!("bad frame at {message}")),
            "{error}"
        );
    }
}

#[test]
fn answers_show_every_word_of_the_buffers() {
    let refusal = Refusal {
        number: 12,
        start: 1,
        end: 2,
        wanted: 3,
        found: 4,
        need: 5,
    };
    let outcome = Outcome {
        answer: Answer::Refused(refusal),
        tokens: vec![1, 2, 3, 62, 3, 3, 0, 9, 0, 8],
        tree: vec![27, 0, 0, 1, 2, 0, 0, 0, 0, 0, 0, 1, 1],
    };
    let mut out = Vec::new();
    frame::write_answer(&outcome, &mut out);
    assert_eq!(
        out,
        b"R 12 1 2 3 4 5\nT 1 2 3\nT 62 3 3\nN 27 0 0 1 2 0\nZ 2 2\n.\n"
    );
    let mut back = Vec::new();
    Frames::new(&out[..]).next_answer(&mut back).unwrap();
    assert_eq!(back, out);
}

#[test]
fn bad_answers_are_told_with_their_place() {
    let rows: [(&[u8], &str); 2] = [
        (
            b"A 1 1\nZ 0 0\n",
            "byte 12: the stream ends within an answer",
        ),
        (b"A 1 1\nwhat\n.\n", "byte 6: no line of an answer"),
    ];
    for (stream, message) in rows {
        let error = Frames::new(stream)
            .next_answer(&mut Vec::new())
            .unwrap_err();
        assert_eq!(error, format!("bad frame at {message}"));
    }
}
