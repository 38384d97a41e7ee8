//! The editions of the reading rules.

use std::fmt;
use std::str::FromStr;

/// An edition of the reading rules.
///
/// In edition 2 a `>>` where a type list must close counts as two closers, and a date must be a day of the
/// Gregorian calendar, year 0000 included. All else is the same: whatever both editions accept has the same
/// tokens and records, and edition 2 accepts what edition 1 accepts unless some date is no day.
///
/// ```
/// use quanta::{Call, Edition, Reading};
///
/// let read = |edition, source| Reading::new(edition, Call::Type, source, &[]);
/// let refusal = read(Edition::One, b"Map<A, Set<B>>").unwrap_err();
/// assert_eq!(refusal.to_string(), "12: expected `>`, found `>>` at 12..14");
/// let reading = read(Edition::Two, b"Map<A, Set<B>>").unwrap();
/// let spans: Vec<_> = reading.records().map(|record| record.span.to_string()).collect();
/// assert_eq!(spans, ["4..5", "11..12", "7..13", "0..14"]);
///
/// let date = |edition| Reading::new(edition, Call::Expr, b"@2026-02-29", &[]);
/// assert!(date(Edition::One).is_ok());
/// assert_eq!(date(Edition::Two).unwrap_err().to_string(), "28: a date that is no day at 0..11");
/// ```
#[derive(Clone, Copy, Debug, PartialEq, Eq, Hash, PartialOrd, Ord)]
pub enum Edition {
    One = 1,
    Two,
}

impl Edition {
    /// All of them, in the order of their numbers.
    pub const ALL: &'static [Edition] = &[Edition::One, Edition::Two];

    /// Its number, by which a call is told of it.
    pub fn number(self) -> u32 {
        self as u32
    }

    /// The edition of this number, if there is one.
    ///
    /// ```
    /// use quanta::Edition;
    /// assert_eq!(Edition::from_number(2), Some(Edition::Two));
    /// assert_eq!(Edition::from_number(0), None);
    /// ```
    pub fn from_number(number: u32) -> Option<Edition> {
        match number {
            1 => Some(Edition::One),
            2 => Some(Edition::Two),
            _ => None,
        }
    }
}

impl fmt::Display for Edition {
    fn fmt(&self, f: &mut fmt::Formatter<'_>) -> fmt::Result {
        self.number().fmt(f)
    }
}

/// An edition from its number, `1` or `2`.
///
/// ```
/// use quanta::Edition;
/// assert_eq!("2".parse(), Ok(Edition::Two));
/// let error = "3".parse::<Edition>().unwrap_err();
/// assert_eq!(error.to_string(), "an edition is 1 or 2");
/// ```
impl FromStr for Edition {
    type Err = UnknownEdition;

    fn from_str(text: &str) -> Result<Edition, UnknownEdition> {
        match text {
            "1" => Ok(Edition::One),
            "2" => Ok(Edition::Two),
            _ => Err(UnknownEdition),
        }
    }
}

/// A text that is the number of no edition.
#[derive(Clone, Copy, Debug, PartialEq, Eq)]
pub struct UnknownEdition;

impl fmt::Display for UnknownEdition {
    fn fmt(&self, f: &mut fmt::Formatter<'_>) -> fmt::Result {
        f.write_str("an edition is 1 or 2")
    }
}

impl std::error::Error for UnknownEdition {}
