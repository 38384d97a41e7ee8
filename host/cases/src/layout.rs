//! The blanks between tokens.

use crate::rng::Rng;

/// How the blanks between tokens are chosen.
#[derive(Clone, Copy)]
enum Layout {
    Tight,
    Spaced,
    Loose,
}

#[rustfmt::skip]
const BLANKS: [&str; 7] = [" ", "\n", "\r\n", "\t", "  ", " // note\n", "//第三者 \u{1}\"#\r\n"];

/// Lays tokens out as a text that reads back as these tokens.
pub fn lay_out(tokens: &[&str], rng: &mut Rng) -> Vec<u8> {
    let layout = *rng.pick(&[Layout::Tight, Layout::Spaced, Layout::Loose]);
    let mut out: Vec<u8> = Vec::new();
    if rng.once_in(8) {
        out.extend_from_slice(loose_blank(rng).as_bytes());
    }
    for token in tokens {
        let next = token.as_bytes().first().copied();
        if let (Some(last), Some(next)) = (out.last().copied(), next) {
            match layout {
                Layout::Tight if may_touch(last, next) => {}
                Layout::Loose if rng.once_in(2) => {
                    out.extend_from_slice(loose_blank(rng).as_bytes())
                }
                _ => out.push(b' '),
            }
        }
        out.extend_from_slice(token.as_bytes());
    }
    if rng.once_in(8) {
        out.extend_from_slice(loose_blank(rng).as_bytes());
    }
    out
}

// A comment must not follow a `/` directly, so each starts behind a space.
fn loose_blank(rng: &mut Rng) -> String {
    format!(" {}", rng.pick(&BLANKS))
}

// Whether two tokens read back as two without a blank between these bytes.
fn may_touch(last: u8, next: u8) -> bool {
    let closed = |b: u8| b"(){},;:.\"".contains(&b);
    let word = |b: u8| b.is_ascii_alphanumeric() || b == b'_';
    let date_like = |a: u8, b: u8| a.is_ascii_digit() && b == b'-';
    if closed(last) || closed(next) {
        return true;
    }
    word(last) != word(next) && !date_like(last, next) && !date_like(next, last)
}
