//! How long weekdays of a month and Easter take.

use crate::bench::report::Report;
use crate::bench::times::in_turn;
use crate::library::*;
use crate::original::WEEKDAYS;
use crate::{ANSWERED_YEARS, YEARS};
use chrono::{Datelike, Duration, NaiveDate, Weekday};
use trading_calendar::utils::easter::calculate_easter;
use trading_calendar::utils::{
    calculate_easter_monday, calculate_good_friday, last_weekday_of_month, nth_weekday_of_month,
};

pub fn run(report: &mut Report) {
    nth_weekday(report, "1st to 5th", 1, nth_weekday_of_month);
    nth_weekday(report, "-1st to -5th", -1, nth_from_the_end);
    last_weekday(report);
    on_years(report, "calculate_easter", calculate_easter, |year| {
        tc_calculate_easter(year)
    });
    on_years(
        report,
        "calculate_good_friday",
        calculate_good_friday,
        |year| tc_calculate_good_friday(year),
    );
    on_years(
        report,
        "calculate_easter_monday",
        calculate_easter_monday,
        |year| tc_calculate_easter_monday(year),
    );
}

/// Every month of the answered years with every weekday.
fn months_and_weekdays() -> impl Iterator<Item = (u32, u32, u32)> + Clone {
    let months = ANSWERED_YEARS.flat_map(|year| (1..=12).map(move |month| (year, month)));
    months.flat_map(|(year, month)| (0..7).map(move |weekday| (year, month, weekday)))
}

/// As the original takes them.
fn of_original((year, month, weekday): (u32, u32, u32)) -> (i32, u32, Weekday) {
    (year as i32, month, WEEKDAYS[weekday as usize])
}

/// With every nth that a month can have: the fifth is not always there. The library takes it with the sign.
fn nth_weekday(
    report: &mut Report,
    which: &str,
    sign: i32,
    original: impl Fn(i32, u32, Weekday, u8) -> Option<NaiveDate> + Copy,
) {
    let with_nth = |of_month| (1..=5).map(move |nth| (of_month, nth));
    let inputs = months_and_weekdays().flat_map(with_nth);
    let in_original = |(of_month, nth)| (of_original(of_month), nth);
    let originals: Vec<_> = inputs.clone().map(in_original).collect();
    let in_library = |(of_month, nth)| (of_month, sign * i32::from(nth));
    let libraries: Vec<_> = inputs.map(in_library).collect();
    let pair = in_turn(
        report.rounds,
        (&originals, move |&((year, month, weekday), nth)| {
            original(year, month, weekday, nth)
        }),
        (&libraries, |&((year, month, weekday), nth)| {
            tc_nth_weekday_of_month(year, month, weekday, nth)
        }),
    );
    let inputs = format!("All months of 2020 to 2030, weekdays, {which}");
    report.add("nth_weekday_of_month", &inputs, vec![pair]);
}

/// As a user of the original writes it: weeks back from the last weekday, if that is in the month.
fn nth_from_the_end(year: i32, month: u32, weekday: Weekday, nth: u8) -> Option<NaiveDate> {
    let last = last_weekday_of_month(year, month, weekday)?;
    let day = last - Duration::weeks(i64::from(nth) - 1);
    (day.month() == month).then_some(day)
}

fn last_weekday(report: &mut Report) {
    let libraries: Vec<_> = months_and_weekdays().collect();
    let originals: Vec<_> = months_and_weekdays().map(of_original).collect();
    let pair = in_turn(
        report.rounds,
        (&originals, |&(year, month, weekday)| {
            last_weekday_of_month(year, month, weekday)
        }),
        (&libraries, |&(year, month, weekday)| {
            tc_last_weekday_of_month(year, month, weekday)
        }),
    );
    report.add(
        "last_weekday_of_month",
        "All months of 2020 to 2030, weekdays",
        vec![pair],
    );
}

fn on_years<A>(
    report: &mut Report,
    call: &'static str,
    original: impl Fn(i32) -> A + Copy,
    library: impl Fn(u32) -> OptionalDate + Copy,
) {
    let years: Vec<u32> = YEARS.collect();
    let pair = in_turn(
        report.rounds,
        (&years, move |&year| original(year as i32)),
        (&years, move |&year| library(year)),
    );
    report.add(call, "All years, 1 to 9999", vec![pair]);
}
