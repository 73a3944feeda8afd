//! The library beside QuantLib's calendars. Their holidays are not the original's: only times are compared, and on how many days
//! they agree is a note.

use crate::bench::days::{Days, ALL_DAYS};
use crate::bench::ranges::{count, Ranges};
use crate::bench::report::Report;
use crate::bench::summary;
use crate::bench::times::{in_turn, Pair};
use crate::library::{tc_is_trading_day, tc_next_trading_day, Date};
use crate::original::MARKETS;

/// A calendar of QuantLib, known by its address alone.
#[repr(C)]
struct Calendar([u8; 0]);

/// A date of QuantLib, made before the measurement as its user holds it.
#[repr(C, align(8))]
#[derive(Default)]
struct QuantLibDate([u8; 8]);

// Of quantlib.cpp. A measured call is one call, as it is for the library.
unsafe extern "C" {
    safe fn quantlib_has_microseconds() -> bool;
    safe fn quantlib_calendar(market: u32) -> &'static Calendar;
    safe fn quantlib_make_date(date: &mut QuantLibDate, year: u32, month: u32, day: u32);
    safe fn quantlib_is_business_day(calendar: &Calendar, date: &QuantLibDate) -> bool;
    safe fn quantlib_next_business_day(
        calendar: &Calendar,
        date: &QuantLibDate,
        next: &mut QuantLibDate,
    );
    safe fn quantlib_business_days_between(
        calendar: &Calendar,
        from: &QuantLibDate,
        to: &QuantLibDate,
    ) -> u32;
}

pub fn run(rounds: usize, days: &Days) {
    let version = env!("ORACLE_QUANTLIB");
    let unit = ["days", "microseconds"][usize::from(quantlib_has_microseconds())];
    println!(
        "\nThe library beside QuantLib {version}, in whose build a date is a count of {unit}:"
    );
    let mut report = Report::new("QuantLib", rounds);
    let days = &days.library;
    let dates: Vec<QuantLibDate> = days.iter().map(of_date).collect();
    is_trading_day(&mut report, days, &dates);
    next_trading_day(&mut report, days, &dates);
    for ranges in Ranges::all() {
        counts(&mut report, &ranges);
    }
    agreement(days, &dates);
    summary::print(&report);
}

fn of_date(&Date { year, month, day }: &Date) -> QuantLibDate {
    let mut date = QuantLibDate::default();
    quantlib_make_date(&mut date, year, month, day);
    date
}

fn on_markets(pair: impl Fn(&'static Calendar, u32) -> Pair) -> Vec<Pair> {
    (0..5)
        .map(|market| pair(quantlib_calendar(market), market))
        .collect()
}

fn is_trading_day(report: &mut Report, days: &[Date], dates: &[QuantLibDate]) {
    let pairs = on_markets(|calendar, market| {
        in_turn(
            report.rounds,
            (dates, move |date| quantlib_is_business_day(calendar, date)),
            (days, move |day| {
                tc_is_trading_day(market, day.year, day.month, day.day)
            }),
        )
    });
    report.add("is_trading_day", ALL_DAYS, pairs);
}

fn next_trading_day(report: &mut Report, days: &[Date], dates: &[QuantLibDate]) {
    let next = |calendar, date: &QuantLibDate| {
        let mut next = QuantLibDate::default();
        quantlib_next_business_day(calendar, date, &mut next);
        next
    };
    let pairs = on_markets(|calendar, market| {
        in_turn(
            report.rounds,
            (dates, move |date| next(calendar, date)),
            (days, move |day| {
                tc_next_trading_day(market, day.year, day.month, day.day)
            }),
        )
    });
    report.add("next_trading_day", ALL_DAYS, pairs);
}

fn counts(report: &mut Report, ranges: &Ranges) {
    let dates: Vec<_> = ranges
        .library
        .iter()
        .map(|ends| ends.each_ref().map(of_date))
        .collect();
    let pairs = on_markets(|calendar, market| {
        in_turn(
            report.rounds,
            (&dates, move |[from, to]| {
                quantlib_business_days_between(calendar, from, to)
            }),
            (&ranges.library, move |range| count(market, range)),
        )
    });
    report.add("count_trading_days", ranges.title, pairs);
}

/// On how many of the days QuantLib's business days are the library's trading days.
fn agreement(days: &[Date], dates: &[QuantLibDate]) {
    println!(
        "\nDays on which both have the same answer, of {}:\n",
        days.len()
    );
    for (market, number) in MARKETS.iter().zip(0..) {
        let calendar = quantlib_calendar(number);
        let agree = |(day, date): &(&Date, &QuantLibDate)| {
            let answer = tc_is_trading_day(number, day.year, day.month, day.day);
            (answer.value == 1) == quantlib_is_business_day(calendar, date)
        };
        let agreed = days.iter().zip(dates).filter(agree).count();
        println!("- {}: {agreed}", market.code());
    }
}
