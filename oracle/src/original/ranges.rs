//! The trading days of a month and the counts by the original, in the form of the library's answers.

use crate::library::CountResult;
use crate::numbers::{of_count, Numbers};
use crate::original::of_date;
use chrono::{Datelike, NaiveDate};
use trading_calendar::{CalendarError, TradingCalendar};

/// Every byte of a buffer before a call.
pub const UNTOUCHED: u8 = 255;

/// The answer, then the bytes of a buffer with this room. The original has no buffer: days that do not fit are there too.
pub fn trading_days_in_month(
    calendar: &TradingCalendar,
    year: i32,
    month: u32,
    room: u32,
) -> Numbers {
    let of_month = |date: &NaiveDate| {
        assert_eq!((date.year(), date.month()), (year, month));
        date.day()
    };
    let (answer, mut bytes) = match calendar.trading_days_in_month(year, month) {
        Ok(days) => (of_length(days.len()), days.iter().map(of_month).collect()),
        Err(error) => (of_error(error), vec![]),
    };
    bytes.resize(bytes.len().max(room as usize), u32::from(UNTOUCHED));
    [of_count(answer), bytes].concat()
}

pub fn count_trading_days(
    calendar: &TradingCalendar,
    start: NaiveDate,
    end: NaiveDate,
) -> CountResult {
    match calendar.count_trading_days(start, end) {
        Ok(count) => of_length(count),
        Err(error) => of_error(error),
    }
}

fn of_length(count: usize) -> CountResult {
    CountResult {
        count: count as u32,
        ..Default::default()
    }
}

pub fn of_error(error: CalendarError) -> CountResult {
    match error {
        CalendarError::DateOutOfRange(date) => CountResult {
            error: 1,
            count: 0,
            date: of_date(date),
        },
        CalendarError::InvalidDateCalculation(_) => CountResult {
            error: 2,
            ..Default::default()
        },
        error => panic!("not an error of these calls: {error}"),
    }
}
