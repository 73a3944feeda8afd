//! How long calls on a market and a date take.

use crate::bench::report::Report;
use crate::bench::times::in_turn;
use crate::library::*;
use crate::original::days_of;
use crate::ANSWERED_YEARS;
use chrono::NaiveDate;
use trading_calendar::TradingCalendar;

/// Days of 2020 to 2030 in order, in both forms.
pub struct Days {
    inputs: &'static str,
    pub original: Vec<NaiveDate>,
    pub library: Vec<Date>,
}

pub const ALL_DAYS: &str = "All days of 2020 to 2030";

impl Days {
    pub fn all() -> Days {
        Days::with(ALL_DAYS, |_| true)
    }

    fn decembers() -> Days {
        Days::with("Decembers of 2020 to 2030", |date| date.month == 12)
    }

    fn with(inputs: &'static str, has: fn(&Date) -> bool) -> Days {
        let days = ANSWERED_YEARS.flat_map(days_of);
        let (library, original) = days.filter(|(date, _)| has(date)).unzip();
        Days {
            inputs,
            original,
            library,
        }
    }
}

pub fn run(report: &mut Report, days: &Days) {
    use TradingCalendar as Original;
    let decembers = Days::decembers();
    is_trading_day(report, days);
    is_trading_day(report, &decembers);
    is_holiday(report, days);
    is_holiday(report, &decembers);
    on_day(
        report,
        days,
        "next_trading_day",
        Original::next_trading_day,
        |market, it| tc_next_trading_day(market, it.year, it.month, it.day),
    );
    on_day(
        report,
        days,
        "previous_trading_day",
        Original::previous_trading_day,
        |market, it| tc_previous_trading_day(market, it.year, it.month, it.day),
    );
    on_day(
        report,
        days,
        "trading_hours",
        Original::trading_hours,
        |market, it| tc_trading_hours(market, it.year, it.month, it.day),
    );
}

fn is_trading_day(report: &mut Report, days: &Days) {
    on_day(
        report,
        days,
        "is_trading_day",
        TradingCalendar::is_trading_day,
        |market, it| tc_is_trading_day(market, it.year, it.month, it.day),
    );
}

fn is_holiday(report: &mut Report, days: &Days) {
    on_day(
        report,
        days,
        "is_holiday",
        TradingCalendar::is_holiday,
        |market, it| tc_is_holiday(market, it.year, it.month, it.day),
    );
}

/// A call on a market and a date.
fn on_day<A, B>(
    report: &mut Report,
    days: &Days,
    call: &'static str,
    original: impl Fn(&TradingCalendar, NaiveDate) -> A + Copy,
    library: impl Fn(u32, &Date) -> B + Copy,
) {
    let rounds = report.rounds;
    report.on_markets(call, days.inputs, |calendar, market| {
        in_turn(
            rounds,
            (&days.original, move |date| original(calendar, *date)),
            (&days.library, move |date| library(market, date)),
        )
    });
}
