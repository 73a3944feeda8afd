//! How long calls on the hours of a day take.

use crate::bench::days::{Days, ALL_DAYS};
use crate::bench::report::Report;
use crate::bench::times::in_turn;
use crate::library::*;
use crate::original::hours::{self as original, time};
use chrono::{NaiveDate, NaiveTime};
use std::hint::black_box;
use trading_calendar::TradingHours;

/// An early close, before the regular end of every market.
const CLOSE: u32 = 36_000;

/// What is given to a call, with the time that it may be asked about.
type Original<T> = (T, NaiveTime);
type Library<T> = (T, u32);

const RECORDS: &str = "The records of all days of 2020 to 2030";

pub fn run(report: &mut Report, days: &Days) {
    is_open(report, days);
    let mut records = Records { report, days };
    records.measure("trading_hours_new", RECORDS, original_new, library_new);
    with_early_close(&mut records);
    records.measure(
        "is_early_close",
        RECORDS,
        |it| it.0.is_early_close(),
        |it| tc_is_early_close(it.0),
    );
    records.measure(
        "market_close",
        RECORDS,
        |it| it.0.market_close(),
        |it| tc_market_close(it.0),
    );
    records.measure(
        "is_open_at",
        &format!("{RECORDS}, each hour in turn"),
        |it| it.0.is_open_at(it.1),
        |it| tc_is_open_at(it.0, it.1),
    );
}

/// The hours of the day in turn, for each of these.
fn at_hours<A, B>(inputs: impl Iterator<Item = (A, B)>) -> (Vec<Original<A>>, Vec<Library<B>>) {
    let hours = (0..24).map(|hour| 3600 * hour).cycle();
    let of_hour = |((original, library), seconds)| {
        let at = time(seconds).expect("a time");
        ((original, at), (library, seconds))
    };
    inputs.zip(hours).map(of_hour).unzip()
}

fn is_open(report: &mut Report, days: &Days) {
    let rounds = report.rounds;
    let in_both_forms = days.original.iter().zip(&days.library);
    let (originals, libraries) = at_hours(in_both_forms.map(|(date, day)| (*date, *day)));
    let inputs = format!("{ALL_DAYS}, each hour in turn");
    report.on_markets("is_open", &inputs, |calendar, market| {
        in_turn(
            rounds,
            (&originals, move |it| {
                original::is_open(calendar, it.0, it.1)
            }),
            (&libraries, move |it| {
                tc_is_open(market, it.0.year, it.0.month, it.0.day, it.1)
            }),
        )
    });
}

/// Of these days.
struct Records<'a> {
    report: &'a mut Report,
    days: &'a Days,
}

impl Records<'_> {
    /// A call on the record that each market has for each day.
    fn measure<A, B>(
        &mut self,
        call: &'static str,
        inputs: &str,
        original: impl Fn(&Original<TradingHours>) -> A + Copy,
        library: impl Fn(&Library<Hours>) -> B + Copy,
    ) {
        let (rounds, days) = (self.report.rounds, &self.days.original);
        self.report.on_markets(call, inputs, |calendar, _| {
            let of_day = |date: &NaiveDate| {
                let record = original::trading_hours(calendar, *date).hours;
                (calendar.trading_hours(*date), record)
            };
            let (originals, libraries) = at_hours(days.iter().map(of_day));
            in_turn(rounds, (&originals, original), (&libraries, library))
        });
    }
}

fn original_new((record, _): &Original<TradingHours>) -> TradingHours {
    let (pre_market, after_hours) = (record.pre_market.clone(), record.after_hours.clone());
    TradingHours::new(record.date, record.regular.clone(), pre_market, after_hours)
}

fn library_new((record, _): &Library<Hours>) -> HoursResult {
    let Date { year, month, day } = record.date;
    tc_trading_hours_new(
        year,
        month,
        day,
        record.regular,
        record.has_pre_market,
        record.pre_market,
        record.has_after_hours,
        record.after_hours,
    )
}

/// One time for every record. The compiler does not know it.
fn with_early_close(records: &mut Records) {
    let seconds = black_box(CLOSE);
    let close = time(seconds).expect("a time");
    records.measure(
        "with_early_close",
        RECORDS,
        move |it| it.0.clone().with_early_close(close),
        move |it| tc_with_early_close(it.0, seconds),
    );
}
