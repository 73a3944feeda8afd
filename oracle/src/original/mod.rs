//! The same questions to the original, and its answers in the form of the library's.

pub mod common_days;
pub mod hours;
pub mod ranges;
pub mod sheets;
pub mod slices;

use crate::library::{BoolResult, Date, OptionalDate, TradingDayResult};
use crate::{ANSWERED_YEARS, YEARS};
use chrono::{Datelike, NaiveDate, Weekday};
use trading_calendar::markets::canada::TSXMarket;
use trading_calendar::markets::japan::TSEMarket;
use trading_calendar::markets::uk::LSEMarket;
use trading_calendar::markets::us::USMarket;
use trading_calendar::markets::MarketImpl;
use trading_calendar::utils::easter::calculate_easter;
use trading_calendar::utils::{self, calculate_easter_monday, calculate_good_friday};
use trading_calendar::{CalendarError, Market, Result, TradingCalendar};

/// By their codes and numbers [markets] [weekday-numbers].
pub const MARKETS: [Market; 5] = [
    Market::NYSE,
    Market::NASDAQ,
    Market::LSE,
    Market::TSE,
    Market::TSX,
];
pub const WEEKDAYS: [Weekday; 7] = [
    Weekday::Mon,
    Weekday::Tue,
    Weekday::Wed,
    Weekday::Thu,
    Weekday::Fri,
    Weekday::Sat,
    Weekday::Sun,
];

/// A calendar for each market.
pub fn calendars() -> [TradingCalendar; 5] {
    MARKETS.map(|market| TradingCalendar::new(market).expect("a calendar"))
}

/// What stands behind the calendars, without the limits 2020 and 2030.
pub fn implementations() -> [Box<dyn MarketImpl>; 5] {
    [
        Box::new(USMarket::new()),
        Box::new(USMarket::new()),
        Box::new(LSEMarket::new()),
        Box::new(TSEMarket::new()),
        Box::new(TSXMarket::new()),
    ]
}

/// The days of a year in order, in both forms.
pub fn days_of(year: u32) -> impl Iterator<Item = (Date, NaiveDate)> {
    (1..=12).flat_map(move |month| {
        (1..=31).filter_map(move |day| {
            let date = NaiveDate::from_ymd_opt(year as i32, month, day)?;
            Some((Date { year, month, day }, date))
        })
    })
}

pub fn of_date(date: NaiveDate) -> Date {
    Date {
        year: u32::try_from(date.year()).expect("a year from 0 on"),
        month: date.month(),
        day: date.day(),
    }
}

pub fn of_option(answer: Option<NaiveDate>) -> OptionalDate {
    answer.map_or(OptionalDate::default(), |date| OptionalDate {
        found: 1,
        date: of_date(date),
    })
}

pub fn of_result(answer: Result<bool>) -> BoolResult {
    match answer {
        Ok(value) => BoolResult {
            value: u32::from(value),
            ..Default::default()
        },
        Err(CalendarError::DateOutOfRange(date)) => BoolResult {
            error: 1,
            value: 0,
            date: of_date(date),
        },
        Err(error) => panic!("not an error of this call: {error}"),
    }
}

/// next_trading_day or previous_trading_day.
pub type Neighbour = fn(&TradingCalendar, NaiveDate) -> NaiveDate;

/// None where the original leaves the years 1 to 9999. It has no distance and no mark: they come from both dates [distance]
/// [outside].
pub fn of_neighbour(given: NaiveDate, answer: NaiveDate) -> Option<TradingDayResult> {
    let distance = (answer - given).num_days().unsigned_abs() as u32;
    let [given, date] = [given, answer].map(of_date);
    let inside = [given, date].map(|date| ANSWERED_YEARS.contains(&date.year));
    YEARS.contains(&date.year).then_some(TradingDayResult {
        error: 0,
        date,
        distance,
        outside: u32::from(inside != [true, true]),
    })
}

#[inline]
pub fn nth_weekday_of_month(year: u32, month: u32, weekday: u32, nth: u8) -> OptionalDate {
    let weekday = WEEKDAYS[weekday as usize];
    of_option(utils::nth_weekday_of_month(
        year as i32,
        month,
        weekday,
        nth,
    ))
}

pub fn last_weekday_of_month(year: u32, month: u32, weekday: u32) -> OptionalDate {
    of_option(last_weekday(year, month, weekday))
}

pub fn last_weekday(year: u32, month: u32, weekday: u32) -> Option<NaiveDate> {
    let weekday = WEEKDAYS[weekday as usize];
    utils::last_weekday_of_month(year as i32, month, weekday)
}

pub fn easter(year: u32) -> OptionalDate {
    of_option(calculate_easter(year as i32).ok())
}

pub fn good_friday(year: u32) -> OptionalDate {
    of_option(calculate_good_friday(year as i32).ok())
}

pub fn easter_monday(year: u32) -> OptionalDate {
    of_option(calculate_easter_monday(year as i32).ok())
}
