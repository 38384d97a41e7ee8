//! Dates, real days and others, as expressions.

use oracle::{Call, Case};

/// Years on each side of the leap rule, and the first and the last.
pub const YEARS: [usize; 7] = [0, 1600, 1900, 2000, 2023, 2024, 9999];

/// Every date of those years with months from 00 to 13 and days from 00 to 32; the end of February in every year;
/// and every month and day of two digits in one year.
pub fn all() -> impl Iterator<Item = Case> {
    let around = YEARS
        .into_iter()
        .flat_map(|year| dates(year, 0..=13, 0..=32));
    let leap = (0..=9999).flat_map(|year| dates(year, 2..=2, 28..=30));
    let whole = dates(2024, 0..=99, 0..=99);
    let texts = around.chain(leap).chain(whole);
    texts.map(|text| Case::ample(Call::Expr, text.into_bytes(), Vec::new()))
}

type Range = std::ops::RangeInclusive<usize>;

fn dates(year: usize, months: Range, days: Range) -> impl Iterator<Item = String> {
    months.flat_map(move |month| days.clone().map(move |day| text(year, month, day)))
}

/// The token of a date.
pub fn text(year: usize, month: usize, day: usize) -> String {
    format!("@{year:04}-{month:02}-{day:02}")
}
