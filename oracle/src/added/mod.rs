//! Added answers: inputs for which the original has no answer, panics, or leaves the years 1 to 9999. The library's answer is
//! the one that docs/SCOPE.md fixes; docs/DIFFERENCES.md lists these inputs.

pub mod common_days;
pub mod faults;
mod from_the_end;
pub mod hours;
mod malformed;
pub mod ranges;
pub mod sheets;
pub mod slices;

use crate::call::{catch_panic, Answer, Call, Input};
use crate::tally::Tally;
use crate::{original, ANSWERED_YEARS, LAST_YEAR, YEARS};
use chrono::NaiveDate;
use std::hint::black_box;

const NONE: Answer = [0; 6];

pub const NO_YEARS: &[u32] = &[0, 10000, 10001, 65537, 262142, 262143, 1 << 31, u32::MAX];
pub const NO_MONTHS: &[u32] = &[0, 13, 14, 255, 257, 1 << 31, u32::MAX];
const NO_WEEKDAYS: &[u32] = &[7, 8, 255, 256, 1 << 31, u32::MAX];
pub const NO_MARKETS: &[u32] = &[5, 6, 255, 256, 1 << 31, u32::MAX];
pub const NO_DATES: &[[u32; 3]] = &[
    [0, 0, 0],
    [0, 1, 1],
    [10000, 1, 1],
    [(1 << 31) + 2025, 1, 1],
    [u32::MAX, 1, 1],
    [2025, 0, 1],
    [2025, 13, 1],
    [2025, (1 << 31) + 1, 1],
    [2025, 1, 0],
    [2025, 1, 32],
    [2025, 1, (1 << 31) + 1],
    [2025, 2, 29],
    [2024, 2, 30],
    [1900, 2, 29],
    [2025, 4, 31],
];
pub const MONTHS: &[u32] = &[1, 2, 3, 4, 5, 6, 7, 8, 9, 10, 11, 12];
const WEEKDAYS: &[u32] = &[0, 1, 2, 3, 4, 5, 6];
pub const MARKETS: &[u32] = &[0, 1, 2, 3, 4];
const SOME_YEARS: &[u32] = &[1, 2, 1900, 2019, 2020, 2030, 2031, 9998, 9999];
const AROUND_MONTHS: &[u32] = &[0, 1, 2, 3, 4, 5, 6, 7, 8, 9, 10, 11, 12, 13, u32::MAX];
const AROUND_DAYS: &[u32] = &[0, 1, 28, 29, 30, 31, 32, u32::MAX];
const SOME_DAYS: &[u32] = &[1, 15, 28];
const SOME_COUNTS: &[u32] = &[1, 2, 5, 53, 255];
/// For a number that the call does not take.
const UNUSED: &[u32] = &[0];
/// For each market its last trading day of December 9999, and its first of January of the year 1.
const LAST_TRADING_DAYS: [u32; 5] = [31, 31, 31, 30, 31];
const FIRST_TRADING_DAYS: [u32; 5] = [2, 2, 2, 4, 2];

/// Whether all is right.
pub fn run() -> bool {
    let easters = [Call::Easter, Call::GoodFriday, Call::EasterMonday];
    let days = [Call::Holiday, Call::TradingDay];
    let neighbours = [Call::NextTradingDay, Call::PreviousTradingDay];
    let right = [overflows(), nth_weekday(), last_weekday()]
        .into_iter()
        .chain(easters.map(easter))
        .chain(days.map(|call| day(call, 1)))
        .chain(neighbours.map(|call| day(call, 6) & no_neighbour(call)));
    // Each is run, also after one that is not right.
    right.fold(true, |all, right| all & right)
}

/// Those at which the original computes past a number's range: what it does depends on how it was built.
pub fn overflows() -> bool {
    let panics = catch_panic(|| black_box(u8::MAX) + 1).is_err();
    let overflow = if panics { "panics" } else { "wraps" };
    println!("\nAdded answers, beside an original in which an overflow {overflow}:");
    let years: Vec<u32> = YEARS.collect();
    let nth_0 = all_of(&years, MONTHS, WEEKDAYS, &[0]);
    let last_month = all_of(&years, &[u32::MAX], WEEKDAYS, UNUSED);
    none(Call::NthWeekday, "n = 0", nth_0) & none(Call::LastWeekday, "month 4294967295", last_month)
}

fn nth_weekday() -> bool {
    let call = Call::NthWeekday;
    let weekdays = all_of(SOME_YEARS, MONTHS, NO_WEEKDAYS, SOME_COUNTS);
    let years = all_of(NO_YEARS, MONTHS, WEEKDAYS, SOME_COUNTS);
    let months = all_of(SOME_YEARS, NO_MONTHS, WEEKDAYS, SOME_COUNTS);
    none(call, "a weekday above 6", weekdays)
        & none(call, "a day past 9999-12-31", nth_past_the_last_day())
        & none(call, "a year outside 1 to 9999", years)
        & none(call, "a month outside 1 to 12", months)
        & from_the_end::run()
}

/// Inputs at which the original answers a day past 9999-12-31. 254 weeks are less than five years.
pub fn nth_past_the_last_day() -> impl Iterator<Item = Input> + Clone {
    let counts: Vec<u32> = (1..=255).collect();
    let inputs: Vec<Input> = all_of(&[9995, 9996, 9997, 9998, 9999], MONTHS, WEEKDAYS, &counts)
        .filter(|&[year, month, weekday, nth]| {
            let answer = original::nth_weekday_of_month(year, month, weekday, nth as u8);
            answer.date.year > LAST_YEAR
        })
        .collect();
    inputs.into_iter()
}

fn last_weekday() -> bool {
    let call = Call::LastWeekday;
    let month_0 = all_of(SOME_YEARS, &[0], WEEKDAYS, UNUSED);
    let months = all_of(SOME_YEARS, &NO_MONTHS[1..6], WEEKDAYS, UNUSED);
    let weekdays = all_of(SOME_YEARS, MONTHS, NO_WEEKDAYS, UNUSED);
    let december = all_of(&[LAST_YEAR], &[12], WEEKDAYS, UNUSED);
    let years = all_of(NO_YEARS, MONTHS, WEEKDAYS, UNUSED);
    none(call, "month 0", month_0)
        & none(call, "a month above 12", months)
        & none(call, "a weekday above 6", weekdays)
        & none(call, "December 9999", december)
        & none(call, "a year outside 1 to 9999", years)
}

fn easter(call: Call) -> bool {
    let above = all_of(&NO_YEARS[1..], UNUSED, UNUSED, UNUSED);
    none(call, "year 0", all_of(&[0], UNUSED, UNUSED, UNUSED))
        & none(call, "a year above 9999", above)
}

/// Errors 8, 5 and the last of the call, which is 1 or 6: the first that applies.
fn day(call: Call, last: u32) -> bool {
    let answered: Vec<u32> = ANSWERED_YEARS.collect();
    let mut others: Vec<u32> = YEARS.filter(|year| !answered.contains(year)).collect();
    others.extend(NO_YEARS);
    others.sort();
    let years = [SOME_YEARS, NO_YEARS].concat();

    let markets = all_of(NO_MARKETS, &answered, MONTHS, SOME_DAYS);
    let markets_first = all_of(NO_MARKETS, &years, AROUND_MONTHS, AROUND_DAYS);
    let years_out = all_of(MARKETS, NO_YEARS, MONTHS, SOME_DAYS);
    let market_first = format!("a market above 4, before 5 and {last}");
    let date_first = format!("no date, other years, before {last}");
    let year_out = format!("a year outside 1 to 9999, before {last}");
    error(call, 8, "a market above 4", markets)
        & error(call, 8, &market_first, markets_first)
        & error(call, 5, "no date, years 2020 to 2030", no_dates(&answered))
        & error(call, 5, &date_first, no_dates(&others))
        & error(call, 5, &year_out, years_out)
}

/// Error 6. The original goes on, into the year 10000 or the year 0, which is shown at every input.
fn no_neighbour(call: Call) -> bool {
    let inputs = without_neighbour(call);
    let right = error(call, 6, "no trading day left", inputs.iter().copied());
    for input in &inputs[1..] {
        println!("    at {input:?}: {}", call.original(*input));
    }
    right
}

/// Every input of next_trading_day, or of previous_trading_day, with error 6.
pub fn without_neighbour(call: Call) -> Vec<Input> {
    let of_market = |market: u32| match call {
        Call::NextTradingDay => {
            let days = LAST_TRADING_DAYS[market as usize]..=31;
            days.map(|day| [market, LAST_YEAR, 12, day]).collect()
        }
        Call::PreviousTradingDay => {
            let days = 1..=FIRST_TRADING_DAYS[market as usize];
            days.map(|day| [market, 1, 1, day]).collect()
        }
        _ => vec![],
    };
    MARKETS.iter().copied().flat_map(of_market).collect()
}

/// Months and days of these years that the Gregorian calendar does not have.
fn no_dates(years: &[u32]) -> impl Iterator<Item = Input> + Clone + '_ {
    let no_date = |&[_, year, month, day]: &Input| {
        i32::try_from(year)
            .ok()
            .and_then(|year| NaiveDate::from_ymd_opt(year, month, day))
            .is_none()
    };
    all_of(MARKETS, years, AROUND_MONTHS, AROUND_DAYS).filter(no_date)
}

/// Every choice of one number from each list, in order.
fn all_of<'a>(
    first: &'a [u32],
    second: &'a [u32],
    third: &'a [u32],
    fourth: &'a [u32],
) -> impl Iterator<Item = Input> + Clone + 'a {
    first.iter().flat_map(move |&a| {
        second.iter().flat_map(move |&b| {
            third
                .iter()
                .flat_map(move |&c| fourth.iter().map(move |&d| [a, b, c, d]))
        })
    })
}

fn none(call: Call, name: &str, inputs: impl Iterator<Item = Input> + Clone) -> bool {
    let title = format!("{}, none for {name}", call.name());
    check(call, title, NONE, "none", inputs)
}

fn error(call: Call, number: u32, name: &str, inputs: impl Iterator<Item = Input> + Clone) -> bool {
    let title = format!("{}, error {number} for {name}", call.name());
    check(call, title, [number, 0, 0, 0, 0, 0], "an error", inputs)
}

/// Compares the library with the answer that is due, and shows what the original does.
fn check(
    call: Call,
    title: String,
    due: Answer,
    in_words: &str,
    inputs: impl Iterator<Item = Input> + Clone,
) -> bool {
    let mut tally = Tally::new(title);
    for input in inputs.clone() {
        tally.compare(call.used(&input), call.library(input), due);
    }
    let right = tally.close(inputs.clone().count() as u64);
    show_original(call, in_words, inputs);
    right
}

/// At the first input; if it answers as is due there, also at the first where it does not.
fn show_original(call: Call, due: &str, inputs: impl Iterator<Item = Input>) {
    let mut inputs = inputs.map(|input| (input, call.original(input)));
    let Some((first, words)) = inputs.next() else {
        return;
    };
    println!("    the original at {:?}: {words}", call.used(&first));
    if words != due {
        return;
    }
    match inputs.find(|(_, words)| words != due) {
        Some((input, words)) => println!("    at {:?}: {words}", call.used(&input)),
        None => println!("    at all the others too"),
    }
}
