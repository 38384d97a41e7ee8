//! A calendar: which dates are days, by RFC 3339 and the Gregorian leap rule, year 0000 included.
//!
//! There is no table of months. A date is made the number of a day and this number a date again, always one
//! that there is: a date that comes back as it was is a day, and no other comes back.

/// A year, a month and a day of the month.
#[derive(Clone, Copy, Debug, PartialEq, Eq)]
pub struct Date {
    pub year: u32,
    pub month: u32,
    pub day: u32,
}

impl Date {
    /// The date of a text `YYYY-MM-DD`.
    pub fn of_text(text: &str) -> Date {
        let number = |from, to| text[from..to].parse().expect("a date has digits there");
        Date {
            year: number(0, 4),
            month: number(5, 7),
            day: number(8, 10),
        }
    }

    /// Whether there is such a day.
    pub fn is_day(self) -> bool {
        Date::of_number(self.number()) == self
    }

    // The number of the day. A year is taken from its March on, so that its last day may be a leap day; months are
    // then counted from 0. 400 years more, after which the calendar repeats, keep January of 0000 above zero.
    fn number(self) -> u32 {
        let (year, month) = match self.month {
            0..=2 => (self.year + 399, self.month + 9),
            _ => (self.year + 400, self.month - 3),
        };
        before_year(year) + before_month(month) + self.day
    }

    // The day of this number.
    fn of_number(number: u32) -> Date {
        // 400 years have 146,097 days, so this year is right or too late.
        let mut year = 400 * number / 146_097 + 1;
        while before_year(year) >= number {
            year -= 1;
        }
        let in_year = number - before_year(year);
        let mut month = 11;
        while before_month(month) >= in_year {
            month -= 1;
        }
        let day = in_year - before_month(month);
        let (year, month) = match month {
            0..=9 => (year - 400, month + 3),
            _ => (year - 399, month - 9),
        };
        Date { year, month, day }
    }
}

// The days before the March of a year: a leap day stood in each 4th year before, but for each 100th, and in each 400th.
fn before_year(year: u32) -> u32 {
    365 * year + year / 4 - year / 100 + year / 400
}

// The days from a March up to a month: 31, 30, 31, 30, 31 again and again, of which the last, February, is not reached.
fn before_month(month: u32) -> u32 {
    (153 * month + 2) / 5
}

#[cfg(test)]
mod tests {
    use super::*;

    fn is_day(text: &str) -> bool {
        Date::of_text(text).is_day()
    }

    // RFC 3339's table of months, by the leap rule of its appendix C.
    fn last_day(year: u32, month: u32) -> u32 {
        let leap = year % 4 == 0 && (year % 100 != 0 || year % 400 == 0);
        match month {
            2 if leap => 29,
            2 => 28,
            4 | 6 | 9 | 11 => 30,
            1..=12 => 31,
            _ => 0,
        }
    }

    #[test]
    fn every_date() {
        let mut days = 0;
        for year in 0..=9999 {
            for month in 0..=99 {
                for day in 0..=33 {
                    let is_day = Date { year, month, day }.is_day();
                    let expected = (1..=last_day(year, month)).contains(&day);
                    assert_eq!(is_day, expected, "{year}-{month}-{day}");
                    days += u32::from(is_day);
                }
            }
        }
        // 25 times 400 years.
        assert_eq!(days, 25 * 146_097);
    }

    #[test]
    fn some_dates() {
        for text in [
            "2024-02-29",
            "0000-02-29",
            "1600-02-29",
            "0000-01-01",
            "9999-12-31",
        ] {
            assert!(is_day(text), "{text}");
        }
        for text in [
            "2024-02-30",
            "2023-02-29",
            "1900-02-29",
            "0000-00-00",
            "2024-04-31",
            "9999-99-99",
        ] {
            assert!(!is_day(text), "{text}");
        }
    }
}
