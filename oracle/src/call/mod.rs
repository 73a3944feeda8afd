//! The calls on any numbers at all: what the library answers, and what the original does.

pub mod common_days;
pub mod hours;
pub mod ranges;
pub mod sheets;
pub mod slices;

use crate::library::*;
use crate::original::{MARKETS, WEEKDAYS};
use chrono::{NaiveDate, Weekday};
use std::panic::{self, UnwindSafe};
use trading_calendar::utils::easter::calculate_easter;
use trading_calendar::utils::{self, calculate_easter_monday, calculate_good_friday};
use trading_calendar::{CalendarError, TradingCalendar};

#[derive(Clone, Copy)]
pub enum Call {
    NthWeekday,
    LastWeekday,
    Easter,
    GoodFriday,
    EasterMonday,
    Holiday,
    TradingDay,
    NextTradingDay,
    PreviousTradingDay,
}

/// The numbers that a call takes, and the fields of its answer in order. Those that it does not have are 0.
pub type Input = [u32; 4];
pub type Answer = [u32; 6];

impl Call {
    pub fn name(self) -> &'static str {
        match self {
            Call::NthWeekday => "nth_weekday_of_month",
            Call::LastWeekday => "last_weekday_of_month",
            Call::Easter => "calculate_easter",
            Call::GoodFriday => "calculate_good_friday",
            Call::EasterMonday => "calculate_easter_monday",
            Call::Holiday => "is_holiday",
            Call::TradingDay => "is_trading_day",
            Call::NextTradingDay => "next_trading_day",
            Call::PreviousTradingDay => "previous_trading_day",
        }
    }

    /// Those of the numbers that the call takes.
    pub fn used(self, input: &Input) -> &[u32] {
        match self {
            Call::Easter | Call::GoodFriday | Call::EasterMonday => &input[..1],
            Call::LastWeekday => &input[..3],
            Call::NthWeekday
            | Call::Holiday
            | Call::TradingDay
            | Call::NextTradingDay
            | Call::PreviousTradingDay => input,
        }
    }

    pub fn library(self, [a, b, c, d]: Input) -> Answer {
        match self {
            Call::NthWeekday => optional_date(tc_nth_weekday_of_month(a, b, c, d as i32)),
            Call::LastWeekday => optional_date(tc_last_weekday_of_month(a, b, c)),
            Call::Easter => optional_date(tc_calculate_easter(a)),
            Call::GoodFriday => optional_date(tc_calculate_good_friday(a)),
            Call::EasterMonday => optional_date(tc_calculate_easter_monday(a)),
            Call::Holiday => bool_result(tc_is_holiday(a, b, c, d)),
            Call::TradingDay => bool_result(tc_is_trading_day(a, b, c, d)),
            Call::NextTradingDay => trading_day_result(tc_next_trading_day(a, b, c, d)),
            Call::PreviousTradingDay => trading_day_result(tc_previous_trading_day(a, b, c, d)),
        }
    }

    /// In words, be it an answer, a panic, or that the question cannot be put.
    pub fn original(self, input: Input) -> String {
        match catch_panic(|| self.ask_original(input)) {
            Ok(Some(answer)) => answer,
            Ok(None) => "cannot be asked".to_string(),
            Err(message) => format!("panics: {message}"),
        }
    }

    /// None if the types of the original have no such numbers.
    fn ask_original(self, [a, b, c, d]: Input) -> Option<String> {
        Some(match self {
            Call::NthWeekday => date_or_none(utils::nth_weekday_of_month(
                year(a)?,
                b,
                weekday(c)?,
                u8::try_from(d).ok()?,
            )),
            Call::LastWeekday => {
                date_or_none(utils::last_weekday_of_month(year(a)?, b, weekday(c)?))
            }
            Call::Easter => date_or_none(calculate_easter(year(a)?).ok()),
            Call::GoodFriday => date_or_none(calculate_good_friday(year(a)?).ok()),
            Call::EasterMonday => date_or_none(calculate_easter_monday(year(a)?).ok()),
            Call::Holiday => yes_or_no(calendar(a)?.is_holiday(date(b, c, d)?)),
            Call::TradingDay => yes_or_no(calendar(a)?.is_trading_day(date(b, c, d)?)),
            Call::NextTradingDay => calendar(a)?.next_trading_day(date(b, c, d)?).to_string(),
            Call::PreviousTradingDay => calendar(a)?
                .previous_trading_day(date(b, c, d)?)
                .to_string(),
        })
    }
}

/// The answer, or the message of a panic, which is not printed.
pub fn catch_panic<T>(ask: impl FnOnce() -> T + UnwindSafe) -> Result<T, String> {
    panic::set_hook(Box::new(|_| {}));
    let outcome = panic::catch_unwind(ask);
    drop(panic::take_hook());
    outcome.map_err(|payload| match payload.downcast_ref::<&str>() {
        Some(message) => message.to_string(),
        None => "with another message".to_string(),
    })
}

fn optional_date(OptionalDate { found, date }: OptionalDate) -> Answer {
    [found, date.year, date.month, date.day, 0, 0]
}

fn bool_result(BoolResult { error, value, date }: BoolResult) -> Answer {
    [error, value, date.year, date.month, date.day, 0]
}

pub fn trading_day_result(answer: TradingDayResult) -> Answer {
    let TradingDayResult {
        error,
        date: Date { year, month, day },
        distance,
        outside,
    } = answer;
    [error, year, month, day, distance, outside]
}

pub fn year(number: u32) -> Option<i32> {
    i32::try_from(number).ok()
}

fn weekday(number: u32) -> Option<Weekday> {
    WEEKDAYS.get(number as usize).copied()
}

pub fn date(number: u32, month: u32, day: u32) -> Option<NaiveDate> {
    NaiveDate::from_ymd_opt(year(number)?, month, day)
}

pub fn calendar(market: u32) -> Option<TradingCalendar> {
    let market = MARKETS.get(market as usize)?;
    TradingCalendar::new(*market).ok()
}

fn date_or_none(answer: Option<NaiveDate>) -> String {
    answer.map_or("none".to_string(), |date| date.to_string())
}

fn yes_or_no(answer: Result<bool, CalendarError>) -> String {
    match answer {
        Ok(true) => "yes".to_string(),
        Ok(false) => "no".to_string(),
        Err(CalendarError::DateOutOfRange(date)) => format!("DateOutOfRange({date})"),
        Err(error) => error.to_string(),
    }
}
