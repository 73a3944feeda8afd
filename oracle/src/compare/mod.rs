//! Every input that both sides answer: the answers are the same.

mod hours;
mod neighbours;
mod ranges;
mod records;
mod sheets;

use crate::library::*;
use crate::original::{self, days_of, of_result};
use crate::tally::Tally;
use crate::{added, ANSWERED_YEARS, LAST_YEAR, YEARS};
use chrono::NaiveDate;
use trading_calendar::{Result, TradingCalendar};

pub const MARKETS: u64 = 5;
/// Days of the years 1 to 9999, and of 2020 to 2030.
pub const ALL_DAYS: u64 = 3_652_059;
pub const ANSWERED_DAYS: u64 = 4018;

/// Whether all is right.
pub fn run() -> bool {
    println!("Inputs that both answer:");
    let both = [
        easters(),
        last_weekdays(),
        nth_weekdays(),
        wrappers(
            "is_holiday",
            |market, date| tc_is_holiday(market, date.year, date.month, date.day),
            TradingCalendar::is_holiday,
        ),
        wrappers(
            "is_trading_day",
            |market, date| tc_is_trading_day(market, date.year, date.month, date.day),
            TradingCalendar::is_trading_day,
        ),
        implementations(),
        neighbours::run(),
        ranges::run(),
        hours::run(),
        sheets::run(),
    ];
    let added = added::run()
        & added::ranges::run()
        & added::slices::run()
        & added::common_days::run()
        & added::hours::run()
        & added::sheets::run();
    both.into_iter().all(|right| right) && added
}

fn easters() -> bool {
    let mut sundays = Tally::new("calculate_easter");
    let mut fridays = Tally::new("calculate_good_friday");
    let mut mondays = Tally::new("calculate_easter_monday");
    for year in YEARS {
        let input = &[year];
        sundays.compare(input, tc_calculate_easter(year), original::easter(year));
        fridays.compare(
            input,
            tc_calculate_good_friday(year),
            original::good_friday(year),
        );
        mondays.compare(
            input,
            tc_calculate_easter_monday(year),
            original::easter_monday(year),
        );
    }
    let years = YEARS.count() as u64;
    sundays.close(years) & fridays.close(years) & mondays.close(years)
}

/// Every month and weekday in order.
pub fn months_and_weekdays() -> impl Iterator<Item = (u32, u32, u32)> + Clone {
    YEARS.flat_map(|year| {
        (1..=12).flat_map(move |month| (0..=6).map(move |weekday| (year, month, weekday)))
    })
}

/// By both calls of the library that have it, but for December 9999, which has an added answer.
fn last_weekdays() -> bool {
    let mut last = Tally::new("last_weekday_of_month");
    let mut nth = Tally::new("nth_weekday_of_month, n = -1, by last_weekday_of_month");
    for (year, month, weekday) in months_and_weekdays() {
        if (year, month) == (LAST_YEAR, 12) {
            continue;
        }
        let input = &[year, month, weekday];
        let original = original::last_weekday_of_month(year, month, weekday);
        let library = tc_last_weekday_of_month(year, month, weekday);
        last.compare(input, library, original);
        let library = tc_nth_weekday_of_month(year, month, weekday, -1);
        nth.compare(input, library, original);
    }
    let meant = (YEARS.count() * 12 - 1) as u64 * 7;
    last.close(meant) & nth.close(meant)
}

/// Every n from 1 to 255, but where the original answers a day past 9999-12-31.
fn nth_weekdays() -> bool {
    let mut tally = Tally::new("nth_weekday_of_month");
    let inputs = months_and_weekdays().flat_map(|month| (1..=255).map(move |nth| (month, nth)));
    for ((year, month, weekday), nth) in inputs {
        let original = original::nth_weekday_of_month(year, month, weekday, nth);
        if original.date.year > LAST_YEAR {
            continue;
        }
        let library = tc_nth_weekday_of_month(year, month, weekday, nth.into());
        tally.compare(&[year, month, weekday, nth.into()], library, original);
    }
    let left_out = added::nth_past_the_last_day().count();
    tally.close((YEARS.count() * 12 * 7 * 255 - left_out) as u64)
}

/// Every market, every day of the years 1 to 9999, in both forms.
pub fn all_days() -> impl Iterator<Item = (u32, Date, NaiveDate)> {
    (0..5).flat_map(|market| {
        YEARS
            .flat_map(days_of)
            .map(move |(date, naive)| (market, date, naive))
    })
}

/// The calls of TradingCalendar: every market, every day of the years 1 to 9999.
fn wrappers(
    name: &str,
    library: impl Fn(u32, Date) -> BoolResult,
    original: impl Fn(&TradingCalendar, NaiveDate) -> Result<bool>,
) -> bool {
    let calendars = original::calendars();
    let mut inside = Tally::new(format!("{name}, years 2020 to 2030"));
    let mut outside = Tally::new(format!("{name}, error 1 in the other years"));
    for (market, date, naive) in all_days() {
        let tally = if ANSWERED_YEARS.contains(&date.year) {
            &mut inside
        } else {
            &mut outside
        };
        let due = of_result(original(&calendars[market as usize], naive));
        let input = [market, date.year, date.month, date.day];
        tally.compare(&input, library(market, date), due);
    }
    inside.close(MARKETS * ANSWERED_DAYS) & outside.close(MARKETS * (ALL_DAYS - ANSWERED_DAYS))
}

/// What stands behind these calls, without the limits 2020 and 2030.
fn implementations() -> bool {
    let mut tally = Tally::new("is_holiday and is_trading_day, any year, no error 1");
    let implementations = original::implementations();
    for (market, Date { year, month, day }, naive) in all_days() {
        let original = &implementations[market as usize];
        let due = DayAnswer {
            known: true,
            holiday: original.is_holiday(naive),
            trades: original.is_trading_day(naive),
        };
        let library = all_years_day(market, year, month, day);
        tally.compare(&[market, year, month, day], library, due);
    }
    tally.close(MARKETS * ALL_DAYS)
}
