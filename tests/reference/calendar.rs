//! Gregorian times from 1900 to 2399, and adding a span to one.

use crate::octets::{require, Section};

const FIRST_YEAR: u64 = 1900;
const LAST_YEAR: u64 = 2399;
const SECONDS_A_DAY: u64 = 86_400;

/// A time to the second; its fields are ordered as the octets are.
#[derive(Clone, Copy, PartialEq, Eq, Debug)]
pub struct Time {
    pub year: u64,
    pub month: u64,
    pub day: u64,
    pub hour: u64,
    pub minute: u64,
    pub second: u64,
}

impl Time {
    /// The time in the seven octets from the given one on, if they hold one.
    pub fn read(section: Section<'_>, first: usize) -> Option<Time> {
        let one_octet = |after: usize| u64::from(section.octet(first + after));
        let year = section.unsigned(first, first + 1);
        let (month, day, hour, minute, second) = (one_octet(2), one_octet(3), one_octet(4), one_octet(5), one_octet(6));
        require((FIRST_YEAR..=LAST_YEAR).contains(&year))?;
        require((1..=12).contains(&month))?;
        require((1..=days_in_month(year, month)).contains(&day))?;
        require(hour <= 23 && minute <= 59 && second <= 59)?;
        Some(Time { year, month, day, hour, minute, second })
    }

    /// The time so many seconds later, unless it passes the last year.
    pub fn later(self, seconds: u64) -> Option<Time> {
        Time::from_seconds(self.seconds() + seconds)
    }

    /// The seconds since the first year began.
    fn seconds(self) -> u64 {
        let months: u64 = (1..self.month).map(|month| days_in_month(self.year, month)).sum();
        let days = days_before_year(self.year) + months + self.day - 1;
        days * SECONDS_A_DAY + self.hour * 3600 + self.minute * 60 + self.second
    }

    fn from_seconds(seconds: u64) -> Option<Time> {
        let days = seconds / SECONDS_A_DAY;
        require(days < days_before_year(LAST_YEAR + 1))?;
        let year = year_of_day(days);
        let (month, day) = month_and_day(year, days - days_before_year(year));
        let second_of_day = seconds % SECONDS_A_DAY;
        let (hour, minute, second) = (second_of_day / 3600, second_of_day / 60 % 60, second_of_day % 60);
        Some(Time { year, month, day, hour, minute, second })
    }

    /// Year, month, day, hour, minute, second.
    pub fn numbers(self) -> [u64; 6] {
        [self.year, self.month, self.day, self.hour, self.minute, self.second]
    }

    /// The time as fourteen digits.
    pub fn digits(self) -> String {
        format!("{:04}{:02}{:02}{:02}{:02}{:02}", self.year, self.month, self.day, self.hour, self.minute, self.second)
    }
}

/// The seconds in one unit of time, for the units the reader takes.
pub fn seconds_in_unit(unit: u8) -> Option<u64> {
    match unit {
        0 => Some(60),
        1 => Some(3600),
        2 => Some(SECONDS_A_DAY),
        _ => None,
    }
}

fn is_leap_year(year: u64) -> bool {
    year % 4 == 0 && (year % 100 != 0 || year % 400 == 0)
}

fn days_in_month(year: u64, month: u64) -> u64 {
    match month {
        2 if is_leap_year(year) => 29,
        2 => 28,
        4 | 6 | 9 | 11 => 30,
        _ => 31,
    }
}

/// The days from the start of the first year to the start of the given one.
fn days_before_year(year: u64) -> u64 {
    let leap_days_before = |year: u64| (year - 1) / 4 - (year - 1) / 100 + (year - 1) / 400;
    365 * (year - FIRST_YEAR) + leap_days_before(year) - leap_days_before(FIRST_YEAR)
}

/// The year that holds a day, counted from 0 at the start of the first year.
fn year_of_day(days: u64) -> u64 {
    let mut year = FIRST_YEAR + days / 366;
    while days_before_year(year + 1) <= days {
        year += 1;
    }
    year
}

/// The month and day of a day of the year, counted from 0.
fn month_and_day(year: u64, day_of_year: u64) -> (u64, u64) {
    let mut month = 1;
    let mut days_left = day_of_year;
    while days_left >= days_in_month(year, month) {
        days_left -= days_in_month(year, month);
        month += 1;
    }
    (month, days_left + 1)
}
