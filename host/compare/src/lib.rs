//! Feeds cases to two readers and compares their whole answers.

mod minimise;
mod reader;

pub use minimise::minimised;
pub use reader::{reader, Reader, Reading};

use oracle::Case;
use std::fmt;
use std::io::Write;
use std::time::{Duration, Instant};

// Disagreements that are shown whole.
const SHOWN: u64 = 3;
const PROGRESS_EACH: Duration = Duration::from_secs(5);

/// The numbers of cases and of disagreements.
#[derive(Default)]
pub struct Count {
    pub cases: u64,
    pub disagreements: u64,
}

impl fmt::Display for Count {
    fn fmt(&self, f: &mut fmt::Formatter<'_>) -> fmt::Result {
        let Count {
            cases,
            disagreements,
        } = self;
        write!(f, "{cases} cases, {disagreements} disagreements")
    }
}

/// The answers of both readers to one case.
pub struct Answers {
    pub left: Reading,
    pub right: Reading,
}

impl Answers {
    pub fn agree(&self) -> bool {
        self.left.agrees(&self.right)
    }
}

/// The two readers to compare.
pub struct Pair {
    pub left: Box<dyn Reader>,
    pub right: Box<dyn Reader>,
}

impl Pair {
    pub fn read(&mut self, case: &Case) -> Result<Answers, String> {
        Ok(Answers {
            left: self.left.read(case)?,
            right: self.right.read(case)?,
        })
    }

    /// Compares all cases; shows the first disagreements and a small form of the first one on `out`.
    pub fn compare(
        &mut self,
        cases: impl Iterator<Item = Result<Case, String>>,
        out: &mut impl Write,
    ) -> Result<Count, String> {
        let mut count = Count::default();
        let mut first = None;
        let mut told = Instant::now();
        for case in cases {
            let case = case?;
            let answers = self.read(&case)?;
            count.cases += 1;
            if !answers.agree() {
                count.disagreements += 1;
                if count.disagreements <= SHOWN {
                    let title = format!("disagreement in case {}", count.cases);
                    show(out, &title, &case, &answers)?;
                    first.get_or_insert(case);
                }
            }
            if told.elapsed() >= PROGRESS_EACH {
                eprintln!("{count} so far");
                told = Instant::now();
            }
        }
        if let Some(case) = first {
            let small = minimised(self, case)?;
            let answers = self.read(&small)?;
            show(out, "the first one, made smaller", &small, &answers)?;
        }
        Ok(count)
    }
}

fn show(out: &mut impl Write, title: &str, case: &Case, answers: &Answers) -> Result<(), String> {
    let Case {
        edition,
        call,
        source,
        words,
        token_words,
        tree_words,
    } = case;
    let mut text = format!("--- {title}\n");
    text += &format!(
        "edition {edition}, call {}, {token_words} token words, {tree_words} tree words\n",
        call.name()
    );
    text += &format!("source \"{}\"\n", source.escape_ascii());
    text += &format!("table \"{}\"\n", words.escape_ascii());
    text += &format!("left:\n{}", String::from_utf8_lossy(&answers.left.lines()));
    text += &format!(
        "right:\n{}",
        String::from_utf8_lossy(&answers.right.lines())
    );
    out.write_all(text.as_bytes())
        .map_err(|error| format!("cannot write: {error}"))
}
