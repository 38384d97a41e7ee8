//! Frames: how cases and answers are written in streams.
//!
//! A case is the line `C CALL SOURCE_BYTES TABLE_BYTES TOKEN_WORDS TREE_WORDS`,
//! then exactly the source bytes, the table bytes and one LF. CALL is program,
//! item, stmt, expr or type; a number before it is the edition, which is 1
//! where none stands there.
//!
//! An answer is these lines: `A tokens records`, or `R` and the six numbers of
//! the refusal; `T kind start end` for each token record that stands in its
//! buffer; `N` and six numbers for each tree record that stands there; `Z a b`,
//! the numbers of words other than 0 behind those records in each buffer; `.`.
//! The records that stand are those before the first whose kind is 0.

use crate::{Answer, Call, Case, Outcome, TOKEN_WORDS, TREE_WORDS};
use std::io::{BufRead, Read, Write};

// More than any case needs; a larger length is taken for damage.
const MAX_LENGTH: usize = 1 << 26;
// More than any header has.
const MAX_HEADER: u64 = 120;

/// Writes a case to a stream.
pub fn write_case(case: &Case, out: &mut impl Write) -> std::io::Result<()> {
    let (source, table) = (&case.source, &case.words);
    let name = case.call.name();
    let (token_words, tree_words) = (case.token_words, case.tree_words);
    out.write_all(b"C ")?;
    if case.edition != 1 {
        write!(out, "{} ", case.edition)?;
    }
    writeln!(
        out,
        "{name} {} {} {token_words} {tree_words}",
        source.len(),
        table.len()
    )?;
    out.write_all(source)?;
    out.write_all(table)?;
    out.write_all(b"\n")
}

/// Appends a whole answer.
pub fn write_answer(outcome: &Outcome, out: &mut Vec<u8>) {
    write_verdict(&outcome.answer, out);
    write_tokens(&outcome.tokens, out);
    write_tree(&outcome.tree, out);
    let behind_tokens = nonzero_behind(&outcome.tokens, TOKEN_WORDS);
    let behind_tree = nonzero_behind(&outcome.tree, TREE_WORDS);
    line(out, b'Z', &[behind_tokens, behind_tree]);
    out.extend_from_slice(b".\n");
}

/// Appends an answer's first line.
pub fn write_verdict(answer: &Answer, out: &mut Vec<u8>) {
    match answer {
        Answer::Accepted { tokens, records } => line(out, b'A', &[*tokens, *records]),
        Answer::Refused(r) => line(
            out,
            b'R',
            &[r.number, r.start, r.end, r.wanted, r.found, r.need],
        ),
    }
}

/// Appends a line for each token record that stands in the buffer.
pub fn write_tokens(words: &[u32], out: &mut Vec<u8>) {
    for record in standing(words, TOKEN_WORDS).chunks_exact(TOKEN_WORDS) {
        line(out, b'T', record);
    }
}

/// Appends a line for each tree record that stands in the buffer.
pub fn write_tree(words: &[u32], out: &mut Vec<u8>) {
    for record in standing(words, TREE_WORDS).chunks_exact(TREE_WORDS) {
        line(out, b'N', record);
    }
}

fn line(out: &mut Vec<u8>, letter: u8, numbers: &[u32]) {
    out.push(letter);
    for number in numbers {
        write!(out, " {number}").expect("a Vec takes every write");
    }
    out.push(b'\n');
}

fn standing(words: &[u32], width: usize) -> &[u32] {
    let count = words
        .chunks_exact(width)
        .take_while(|record| record[0] != 0)
        .count();
    &words[..count * width]
}

fn nonzero_behind(words: &[u32], width: usize) -> u32 {
    let behind = &words[standing(words, width).len()..];
    behind.iter().filter(|word| **word != 0).count() as u32
}

/// Reads cases and answers from a stream and counts its bytes.
pub struct Frames<R> {
    input: R,
    offset: u64,
}

impl<R: BufRead> Frames<R> {
    pub fn new(input: R) -> Frames<R> {
        Frames { input, offset: 0 }
    }

    /// The next case, or none at the end of the stream.
    pub fn next_case(&mut self) -> Result<Option<Case>, String> {
        let start = self.offset;
        let header = self.line()?;
        if header.is_empty() {
            return Ok(None);
        }
        let (edition, call, [source, table, token_words, tree_words]) = header_fields(&header)
            .ok_or_else(|| bad(start, "no case header `C CALL and four lengths`"))?;
        let source = self.bytes(source, "the source")?;
        let words = self.bytes(table, "the word table")?;
        let end = self.offset;
        if self.bytes(1, "the LF behind a case")? != b"\n" {
            return Err(bad(end, "no LF behind the case"));
        }
        Ok(Some(Case {
            edition,
            call,
            source,
            words,
            token_words,
            tree_words,
        }))
    }

    /// Appends the next answer, up to and with its line `.`, to `out`.
    pub fn next_answer(&mut self, out: &mut Vec<u8>) -> Result<(), String> {
        loop {
            let start = self.offset;
            let line = self.line()?;
            if line.is_empty() {
                return Err(bad(start, "the stream ends within an answer"));
            }
            if !matches!(line.first(), Some(b'A' | b'R' | b'T' | b'N' | b'Z' | b'.')) {
                return Err(bad(start, "no line of an answer"));
            }
            out.extend_from_slice(&line);
            if line == b".\n" {
                return Ok(());
            }
        }
    }

    fn line(&mut self) -> Result<Vec<u8>, String> {
        let mut line = Vec::new();
        let mut limited = (&mut self.input).take(MAX_HEADER);
        let read = limited.read_until(b'\n', &mut line);
        self.offset += read.map_err(|error| bad(self.offset, &error.to_string()))? as u64;
        Ok(line)
    }

    fn bytes(&mut self, count: usize, what: &str) -> Result<Vec<u8>, String> {
        let mut bytes = Vec::new();
        let read = (&mut self.input).take(count as u64).read_to_end(&mut bytes);
        let read = read.map_err(|error| bad(self.offset, &error.to_string()))?;
        self.offset += read as u64;
        if read < count {
            return Err(bad(self.offset, &format!("the stream ends within {what}")));
        }
        Ok(bytes)
    }
}

fn bad(offset: u64, what: &str) -> String {
    format!("bad frame at byte {offset}: {what}")
}

fn header_fields(header: &[u8]) -> Option<(u32, Call, [usize; 4])> {
    let header = std::str::from_utf8(header).ok()?.strip_suffix('\n')?;
    let mut fields = header.strip_prefix("C ")?.split(' ').peekable();
    let edition = fields.peek()?.parse();
    if edition.is_ok() {
        fields.next();
    }
    let call = Call::from_name(fields.next()?)?;
    let mut lengths = [0; 4];
    for length in &mut lengths {
        *length = fields.next()?.parse().ok().filter(|n| *n <= MAX_LENGTH)?;
    }
    let whole = (edition.unwrap_or(1), call, lengths);
    fields.next().is_none().then_some(whole)
}
