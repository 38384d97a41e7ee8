//! All strings up to a length over an alphabet of bytes or of tokens.

use oracle::{Call, Case};

/// The alphabet where none is given.
pub const DEFAULT_ALPHABET: &str = "a1.(),<>=-\"@/ ;\n";

/// The strings in order of length, then of the alphabet.
pub struct Strings {
    alphabet: Vec<Vec<u8>>,
    between: &'static [u8],
    longest: usize,
    next: Option<Vec<usize>>,
}

impl Strings {
    /// Strings of the alphabet's bytes.
    pub fn new(alphabet: &str, longest: usize) -> Strings {
        let bytes = alphabet.bytes().map(|byte| vec![byte]).collect();
        Strings::over(bytes, b"", longest)
    }

    /// Strings of tokens, given with blanks between; a blank stands between each two.
    pub fn of_tokens(tokens: &str, longest: usize) -> Strings {
        let tokens = tokens.split_whitespace().map(Vec::from).collect();
        Strings::over(tokens, b" ", longest)
    }

    /// Strings of tokens, given with blanks between, with nothing between them, so that some join.
    pub fn of_tight_tokens(tokens: &str, longest: usize) -> Strings {
        let tokens = tokens.split_whitespace().map(Vec::from).collect();
        Strings::over(tokens, b"", longest)
    }

    fn over(alphabet: Vec<Vec<u8>>, between: &'static [u8], longest: usize) -> Strings {
        Strings {
            alphabet,
            between,
            longest,
            next: Some(Vec::new()),
        }
    }

    // The digits that follow these, or none behind the last string.
    fn after(&self, mut digits: Vec<usize>) -> Option<Vec<usize>> {
        for place in (0..digits.len()).rev() {
            if digits[place] + 1 < self.alphabet.len() {
                digits[place] += 1;
                return Some(digits);
            }
            digits[place] = 0;
        }
        digits.push(0);
        (digits.len() <= self.longest && !self.alphabet.is_empty()).then_some(digits)
    }
}

impl Iterator for Strings {
    type Item = Vec<u8>;

    fn next(&mut self) -> Option<Vec<u8>> {
        let digits = self.next.take()?;
        let mut text = Vec::new();
        for (place, digit) in digits.iter().enumerate() {
            if place > 0 {
                text.extend_from_slice(self.between);
            }
            text.extend_from_slice(&self.alphabet[*digit]);
        }
        self.next = self.after(digits);
        Some(text)
    }
}

/// Tokens whose strings are tried on a call: a text that they follow, and the tokens.
#[rustfmt::skip]
const TOKEN_LISTS: [(Call, &str, &str); 18] = [
    (Call::Program, "", "contract C { } import from \"s\" ; , asset Quorum"),
    (Call::Program, "import {", "a Quorum , } from \"s\" ; contract 1"),
    (Call::Program, "contract C { asset A;", "} { contract C import asset a ; genesis"),
    (Call::Item, "", "asset a ; state { } : = entry event genesis invariant ( )"),
    (Call::Item, "state {", "meta a : A = 1 ; } <"),
    (Call::Item, "event E(", "a : A , ) sealed signed by ;"),
    (Call::Item, "entry e()", "writes reads ( a , ) { } conserves mints"),
    (Call::Item, "entry e() writes(", "a , ) { } reads"),
    (Call::Item, "entry e(a: A", ", a : A ) { }"),
    (Call::Item, "entry e()", "after 3 days from a limits { } + ("),
    (Call::Stmt, "", "a 1 ( ) . = += ; , let guard emit -"),
    (Call::Stmt, "emit E(", "a 1 ( ) , ; -"),
    (Call::Expr, "", "a 1 \"s\" ( ) , . + - ! * >> < checked"),
    (Call::Expr, "", "a ( ) , . - +"),
    (Call::Expr, "", "a || && == >= > >> - * !"),
    (Call::Expr, "wrapping", "( ) a . checked now"),
    (Call::Type, "", "A Quorum < > , 1 of >> ( ="),
    (Call::Type, "A<", "1 of , > A"),
];

/// The strings of each list of tokens, with the greatest length at which a list has at most so many.
pub fn token_strings(most: usize) -> impl Iterator<Item = Case> {
    TOKEN_LISTS
        .into_iter()
        .flat_map(move |(call, front, tokens)| {
            let longest = longest(tokens.split_whitespace().count(), most);
            Strings::of_tokens(tokens, longest).map(move |text| {
                let source = [front.as_bytes(), b" ", &text].concat();
                Case::ample(call, source, Vec::new())
            })
        })
}

/// The greatest length for which the strings over so many letters are not more than `most`.
pub fn longest(letters: usize, most: usize) -> usize {
    let (mut length, mut count) = (0, 1);
    while count * letters < most {
        count = count * letters + 1;
        length += 1;
    }
    length
}
