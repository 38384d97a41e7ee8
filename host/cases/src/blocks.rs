//! Long runs of one script in strings and comments, whole or with one piece of damage at any offset.

use crate::damage;
use crate::rng::Rng;
use oracle::{Call, Case};

// Scripts as ranges of scalars: one to four bytes each, and punctuation beside the barred characters.
const SCRIPTS: [(char, char); 6] = [
    ('a', 'z'),
    ('А', 'я'),
    ('一', '\u{9FFF}'),
    ('\u{2010}', '\u{2027}'),
    ('\u{FF01}', '\u{FFEF}'),
    ('\u{1F300}', '\u{1F64F}'),
];

pub fn case(rng: &mut Rng) -> Case {
    let mut text = String::new();
    for _ in 0..rng.between(1, 3) {
        let (front, back) = *rng.pick(&[("\"", "\""), ("//", "\n"), ("//", "\r\n"), (" a", " ")]);
        text += front;
        // The last of these is no string and no comment, so only names go on there.
        let script = if back == " " {
            SCRIPTS[0]
        } else {
            *rng.pick(&SCRIPTS)
        };
        for _ in 0..rng.below(80) {
            text.push(letter(script, rng));
        }
        text += back;
    }
    let mut source = text.into_bytes();
    if rng.once_in(2) {
        damage::bytes(&mut source, rng);
    }
    Case::ample(*rng.pick(&Call::ALL), source, Vec::new())
}

fn letter((first, last): (char, char), rng: &mut Rng) -> char {
    if rng.once_in(40) {
        return ' ';
    }
    let code = rng.between(first as usize, last as usize);
    char::from_u32(code as u32).expect("no script holds surrogates")
}
