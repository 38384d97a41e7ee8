//! Readers: whatever answers cases.

use oracle::frame::{self, Frames};
use oracle::{Case, Outcome};
use std::io::{BufReader, Write};
use std::process::{Child, ChildStdin, ChildStdout, Command, Stdio};

/// A reader's whole answer: as it is from a linked reader, as a frame's lines from a program.
pub enum Reading {
    Outcome(Outcome),
    Lines(Vec<u8>),
}

impl Reading {
    /// The answer's lines.
    pub fn lines(&self) -> Vec<u8> {
        match self {
            Reading::Outcome(outcome) => {
                let mut out = Vec::new();
                frame::write_answer(outcome, &mut out);
                out
            }
            Reading::Lines(lines) => lines.clone(),
        }
    }

    /// Whether two answers are the same. Those of linked readers are compared word by word, without lines.
    pub fn agrees(&self, other: &Reading) -> bool {
        match (self, other) {
            (Reading::Outcome(left), Reading::Outcome(right)) => left == right,
            _ => self.lines() == other.lines(),
        }
    }
}

/// Answers cases.
pub trait Reader {
    fn read(&mut self, case: &Case) -> Result<Reading, String>;
}

impl<F: FnMut(&Case) -> Outcome> Reader for F {
    fn read(&mut self, case: &Case) -> Result<Reading, String> {
        Ok(Reading::Outcome(self(case)))
    }
}

type Linked = fn(&Case) -> Outcome;

/// The linked readers by name.
const LINKED: [(&str, Linked); 4] = [
    ("oracle", oracle::read),
    ("proved", proved::read),
    ("lexical", oracle::read_lexical),
    ("proved-lexer", proved::read_lexical),
];

/// The reader of this name: a linked one, or `cmd:PROGRAM ARGS` for a child process.
pub fn reader(name: &str) -> Result<Box<dyn Reader>, String> {
    if let Some((_, read)) = LINKED.iter().find(|(known, _)| *known == name) {
        return Ok(Box::new(*read));
    }
    match name.strip_prefix("cmd:") {
        Some(command) => Ok(Box::new(Process::start(command)?)),
        None => Err(format!("unknown reader {name}")),
    }
}

// A child that takes cases on its standard input and answers each before it reads the next.
struct Process {
    child: Child,
    input: ChildStdin,
    output: Frames<BufReader<ChildStdout>>,
    command: String,
}

impl Process {
    fn start(command: &str) -> Result<Process, String> {
        let mut words = command.split_whitespace();
        let program = words.next().ok_or("`cmd:` needs a program")?;
        let spawned = Command::new(program)
            .args(words)
            .stdin(Stdio::piped())
            .stdout(Stdio::piped())
            .spawn();
        let mut child = spawned.map_err(|error| format!("cannot start {program}: {error}"))?;
        let output = child.stdout.take().expect("the output is piped");
        Ok(Process {
            input: child.stdin.take().expect("the input is piped"),
            output: Frames::new(BufReader::new(output)),
            child,
            command: command.to_string(),
        })
    }
}

impl Reader for Process {
    fn read(&mut self, case: &Case) -> Result<Reading, String> {
        let mut frame = Vec::new();
        frame::write_case(case, &mut frame).expect("a Vec takes every write");
        let sent = self.input.write_all(&frame);
        sent.map_err(|error| format!("{} takes no case: {error}", self.command))?;
        let mut lines = Vec::new();
        self.output
            .next_answer(&mut lines)
            .map_err(|error| format!("{} answers badly: {error}", self.command))?;
        Ok(Reading::Lines(lines))
    }
}

impl Drop for Process {
    // Killed before it is waited for, since a child that does not read its input may never end.
    fn drop(&mut self) {
        let _ = self.child.kill();
        let _ = self.child.wait();
    }
}
