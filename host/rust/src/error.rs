//! The errors of the calls, as src/error.rs of the original.

use crate::{ffi, NaiveDate};
use std::fmt;

/// The original's errors, and those that were added.
#[derive(Debug, Clone, PartialEq, Eq)]
pub enum CalendarError {
    /// Not every date asked for is in 2020 to 2030; with the date given, the start of a date range or the 1st of a month
    /// `[year-check]` `[month-list]` `[count]` `[slice-order]` `[common-day]`.
    DateOutOfRange(NaiveDate),
    /// An early close that is not before the regular end `[with-early-close]`.
    InvalidTime(String),
    /// No trading day is left up to 9999-12-31, or down to 0001-01-01 `[next]` `[previous]`.
    NoTradingDayFound,
    /// A month that is not 1 to 12 `[month-list]`, or a year without Easter `[easter]`.
    InvalidDateCalculation(String),
    /// A name that no market has; or the library gave an error that `[errors]` does not list.
    InvalidConfiguration(String),
    /// A session of equal ends `[session-new]`.
    InvalidSession,
    /// Added: a number that is no market's `[markets]`.
    UnknownMarket,
    /// Added: numbers that are no date `[date]`.
    InvalidDate,
    /// Added: a number that is no second of the day `[time]`.
    TimeOutOfRange,
    /// Added: the answer takes so many entries, which is more than the buffer has: bytes for a month sheet, numbers for slices.
    BufferTooSmall(usize),
    /// Added: the text does not ask for a month sheet `[sheet-input]`.
    MalformedText,
    /// Added: there is no trading day in the date range over which an order is to be sliced `[slice-order]`.
    NoTradingDayInRange,
    /// Added: a set of markets that is empty, or has a bit that is no market's `[market-set]`.
    InvalidMarketSet,
}

/// The answer of a call, or its error.
pub type Result<T> = std::result::Result<T, CalendarError>;

impl CalendarError {
    /// The number that docs/SCOPE.md gives the error `[errors]`; none for `InvalidConfiguration`, which is no error of the library.
    pub fn number(&self) -> Option<u32> {
        let number = match self {
            CalendarError::DateOutOfRange(_) => 1,
            CalendarError::InvalidDateCalculation(_) => 2,
            CalendarError::InvalidSession => 3,
            CalendarError::InvalidTime(_) => 4,
            CalendarError::InvalidDate => 5,
            CalendarError::NoTradingDayFound => 6,
            CalendarError::TimeOutOfRange => 7,
            CalendarError::UnknownMarket => 8,
            CalendarError::BufferTooSmall(_) => 9,
            CalendarError::MalformedText => 10,
            CalendarError::NoTradingDayInRange => 11,
            CalendarError::InvalidMarketSet => 12,
            CalendarError::InvalidConfiguration(_) => return None,
        };
        Some(number)
    }

    /// The error with this number: count and date are those of the answer, 0 where it has none.
    pub(crate) fn answered(error: u32, count: u32, date: ffi::Date) -> CalendarError {
        match error {
            1 => CalendarError::DateOutOfRange(NaiveDate::answered(date)),
            2 => CalendarError::InvalidDateCalculation("the month is not 1 to 12".to_string()),
            3 => CalendarError::InvalidSession,
            4 => {
                let why = "the early close is not before the regular end";
                CalendarError::InvalidTime(why.to_string())
            }
            5 => CalendarError::InvalidDate,
            6 => CalendarError::NoTradingDayFound,
            7 => CalendarError::TimeOutOfRange,
            8 => CalendarError::UnknownMarket,
            9 => CalendarError::BufferTooSmall(count as usize),
            10 => CalendarError::MalformedText,
            11 => CalendarError::NoTradingDayInRange,
            12 => CalendarError::InvalidMarketSet,
            other => CalendarError::InvalidConfiguration(format!("the library gave error {other}")),
        }
    }
}

impl fmt::Display for CalendarError {
    fn fmt(&self, f: &mut fmt::Formatter<'_>) -> fmt::Result {
        match self {
            CalendarError::DateOutOfRange(date) => {
                let why = "not every date asked for is in 2020 to 2030";
                write!(f, "error 1 at {date}: {why}")
            }
            CalendarError::InvalidTime(why) => write!(f, "invalid time: {why}"),
            CalendarError::NoTradingDayFound => {
                f.write_str("no trading day is left in the years 1 to 9999")
            }
            CalendarError::InvalidDateCalculation(why) => write!(f, "invalid date: {why}"),
            CalendarError::InvalidConfiguration(why) => write!(f, "invalid configuration: {why}"),
            CalendarError::InvalidSession => {
                f.write_str("invalid session: its start and its end are equal")
            }
            CalendarError::UnknownMarket => f.write_str("there is no such market"),
            CalendarError::InvalidDate => f.write_str("there is no such date"),
            CalendarError::TimeOutOfRange => f.write_str("the time is no second of the day"),
            CalendarError::BufferTooSmall(needed) => {
                write!(f, "the answer takes {needed} entries of the buffer")
            }
            CalendarError::MalformedText => f.write_str(
                "the text is not the lines market=, year= and month= with a number each",
            ),
            CalendarError::NoTradingDayInRange => {
                f.write_str("there is no trading day in the date range")
            }
            CalendarError::InvalidMarketSet => {
                f.write_str("the set of markets is empty, or has a bit that is no market's")
            }
        }
    }
}

impl std::error::Error for CalendarError {}

#[cfg(test)]
mod tests {
    use super::*;

    #[test]
    fn numbers_of_errors_go_both_ways_and_others_are_shown() {
        let answered = |error| CalendarError::answered(error, 0, NaiveDate::MIN.into());
        for error in 1..=12 {
            assert_eq!(answered(error).number(), Some(error));
        }
        let other = CalendarError::InvalidConfiguration("the library gave error 13".to_string());
        assert_eq!(answered(13), other);
    }
}
