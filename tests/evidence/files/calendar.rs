//! Gregorian times as seconds from the start of 1900, so that a time some minutes, hours or days later can be written down.

use crate::make::Time;

const FIRST_YEAR: u16 = 1900;
const LAST_YEAR: u16 = 2399;
const SECONDS_OF_A_DAY: u64 = 86_400;

/// The seconds of one unit: minute, hour, day.
pub const SECONDS_OF_UNIT: [u64; 3] = [60, 3_600, SECONDS_OF_A_DAY];

fn is_leap(year: u16) -> bool {
    year % 4 == 0 && (year % 100 != 0 || year % 400 == 0)
}

pub fn days_of_month(year: u16, month: u8) -> u8 {
    match month {
        2 => 28 + u8::from(is_leap(year)),
        4 | 6 | 9 | 11 => 30,
        _ => 31,
    }
}

fn days_of_year(year: u16) -> u64 {
    365 + u64::from(is_leap(year))
}

pub fn seconds_of(time: Time) -> u64 {
    let years: u64 = (FIRST_YEAR..time.year).map(days_of_year).sum();
    let months: u64 = (1..time.month).map(|month| u64::from(days_of_month(time.year, month))).sum();
    let days = years + months + u64::from(time.day) - 1;
    days * SECONDS_OF_A_DAY + u64::from(time.hour) * 3_600 + u64::from(time.minute) * 60 + u64::from(time.second)
}

/// The last second that a time may be: 2399 ends with it.
pub fn last_second() -> u64 {
    seconds_of(Time { year: LAST_YEAR, month: 12, day: 31, hour: 23, minute: 59, second: 59 })
}

fn year_and_day(days: u64) -> (u16, u64) {
    let (mut year, mut left) = (FIRST_YEAR, days);
    while left >= days_of_year(year) {
        left -= days_of_year(year);
        year += 1;
    }
    (year, left)
}

fn month_and_day(year: u16, day_of_year: u64) -> (u8, u8) {
    let (mut month, mut left) = (1, day_of_year);
    while left >= u64::from(days_of_month(year, month)) {
        left -= u64::from(days_of_month(year, month));
        month += 1;
    }
    (month, left as u8 + 1)
}

pub fn time_at(seconds: u64) -> Time {
    let (year, day_of_year) = year_and_day(seconds / SECONDS_OF_A_DAY);
    let (month, day) = month_and_day(year, day_of_year);
    let second_of_day = seconds % SECONDS_OF_A_DAY;
    let (hour, minute, second) = (second_of_day / 3_600, second_of_day / 60 % 60, second_of_day % 60);
    Time { year, month, day, hour: hour as u8, minute: minute as u8, second: second as u8 }
}
