//! The rows of crates/replay/data/hours.txt by call and heading.

use crate::added::faults::{self, time_places, Part};
use crate::call::hours::HoursCall;
use crate::numbers::{every_market, parse, parts, with_each, Numbers, OnNumbers};
use crate::original::of_date;
use crate::rows::inputs::hours::*;
use crate::rows::writer::{self, section};
use crate::ANSWERED_YEARS;
use chrono::{Duration, NaiveDate, Weekday};
use std::collections::BTreeSet;
use std::slice;
use trading_calendar::utils::nth_weekday_of_month;

pub type Section = writer::Section<HoursCall>;

const EXAMPLES: &str = "examples of docs/SCOPE.md";
const EARLY_CLOSES: &str = "3 July, the day after the 4th Thursday of November, 24 December";

pub fn trading_hours() -> Vec<Section> {
    let of_nyse = |years: &[u32]| -> Vec<Numbers> {
        let days = years.iter().flat_map(|&year| early_closes(year));
        let days = days.flat_map(|day| [-1, 0, 1].map(|shift| day + Duration::days(shift)));
        days.map(|day| on(0, numbers_of(day))).collect()
    };
    let days =
        "a Monday, a Saturday, 25 December, a leap day, the first and the last date, a Sunday";
    let nyse = format!("NYSE, {EARLY_CLOSES}, and the days beside them");
    let answered: Vec<u32> = ANSWERED_YEARS.collect();
    let others = early_closes(2025).map(numbers_of);
    let others = (1..5).flat_map(|market| others.map(|date| on(market, date)));
    let about_others = format!("the other markets, {EARLY_CLOSES}, 2025");
    let section = |about: &str, inputs| section(HoursCall::TradingHours, about, inputs);
    vec![
        section(EXAMPLES, vec![on(0, EARLY_SUNDAY), on(0, CHRISTMAS)]),
        section(&format!("each market, {days}"), every_market(&DAYS)),
        section(&format!("{nyse}, 2020 to 2030"), of_nyse(&answered)),
        section(&format!("{nyse}, other years"), of_nyse(&OTHER_YEARS)),
        section(&about_others, others.collect()),
    ]
}

pub fn is_open() -> Vec<Section> {
    let around_times = |market, date| {
        let times = around(times_of(&record_of(market, date)));
        with_each(&times, &[on(market, date)])
    };
    let at_noon = |dates: &[[u32; 3]]| with_each(&[43_200], &every_market(dates));
    let examples = [CHRISTMAS, EARLY_SUNDAY].map(|date| on(0, date));
    let monday = (0..5).flat_map(|market| around_times(market, MONDAY));
    let section = |about: &str, inputs| section(HoursCall::IsOpen, about, inputs);
    vec![
        section(EXAMPLES, with_each(&[EXAMPLE_TIME], &examples)),
        section("each market on a Monday", monday.collect()),
        section("NYSE on an early close", around_times(0, EARLY_CLOSE)),
        section("on a Saturday, on 25 December", at_noon(&DAYS[1..3])),
        section("error 1 in other years", at_noon(&OUTSIDE)),
    ]
}

pub fn sessions() -> Vec<Section> {
    let pairs = with_each(&TIMES, &TIMES.map(|start| vec![start]));
    let about = "any two times; equal ones are error 3";
    let new = section(HoursCall::SessionNew, about, pairs);
    let contains = SESSIONS.map(|(about, session)| {
        let inputs = with_each(&around(session.to_vec()), &[session.to_vec()]);
        section(HoursCall::SessionContains, about, inputs)
    });
    [vec![new], contains.to_vec()].concat()
}

/// The calls on a record.
pub fn records() -> Vec<Section> {
    let all: Vec<(&str, Numbers)> = RECORDS.lines().map(record).collect();
    let records: Vec<Numbers> = all.iter().map(|(_, record)| record.clone()).collect();
    let sunday = vec![record_of(0, EARLY_SUNDAY)];
    let christmas = with_each(&[EXAMPLE_TIME], &[record_of(0, CHRISTMAS)]);
    let of_parts = records.iter().map(|record| parts(record)).collect();
    let each = |call, times: fn(&[u32]) -> Vec<u32>| {
        let of_record = move |(about, record): &(&str, Numbers)| {
            let inputs = with_each(&times(record), slice::from_ref(record));
            section(call, about, inputs)
        };
        all.iter().map(of_record).collect::<Vec<_>>()
    };
    let below = "the records below";
    let first = vec![
        section(HoursCall::TradingHoursNew, below, of_parts),
        section(HoursCall::IsEarlyClose, EXAMPLES, sunday),
        section(HoursCall::IsEarlyClose, below, records.clone()),
        section(HoursCall::MarketClose, below, records),
    ];
    let with_early_close = each(HoursCall::WithEarlyClose, around_the_regular_end);
    let example = section(HoursCall::IsOpenAt, EXAMPLES, christmas);
    let is_open_at = each(HoursCall::IsOpenAt, |record| around(times_of(record)));
    [first, with_early_close, vec![example], is_open_at].concat()
}

/// The errors of a call that the original does not have.
pub fn errors(call: HoursCall) -> Vec<Section> {
    let kinds = |record, wrong| faults::kinds(call, &[faultless(call, record)], wrong);
    let both = kinds(&WHOLE, &WRONG[0])
        .into_iter()
        .zip(kinds(&BARE, &WRONG[1]));
    let sections = both.map(|(whole, bare)| Section {
        call,
        about: whole.about,
        error: Some(whole.error),
        inputs: [whole.inputs, bare.inputs].concat(),
    });
    sections.collect()
}

/// An input of the call, on the record or on its date and its regular hours.
fn faultless(call: HoursCall, record: &[u32]) -> Numbers {
    let (date, regular) = (&record[..3], &record[6..8]);
    match call {
        HoursCall::TradingHours => [&[0], date].concat(),
        HoursCall::IsOpen => [&[0], date, &[EXAMPLE_TIME]].concat(),
        HoursCall::SessionNew => regular.to_vec(),
        HoursCall::SessionContains => [regular, &[EXAMPLE_TIME]].concat(),
        HoursCall::TradingHoursNew => parts(record),
        HoursCall::IsEarlyClose | HoursCall::MarketClose => record.to_vec(),
        HoursCall::WithEarlyClose | HoursCall::IsOpenAt => [record, &[EXAMPLE_TIME]].concat(),
    }
}

fn on(market: u32, date: [u32; 3]) -> Numbers {
    [&[market], &date[..]].concat()
}

fn numbers_of(date: NaiveDate) -> [u32; 3] {
    let date = of_date(date);
    [date.year, date.month, date.day]
}

/// EARLY_CLOSES of a year, whether it has them or not.
fn early_closes(year: u32) -> [NaiveDate; 3] {
    let year = year as i32;
    let date = |month, day| NaiveDate::from_ymd_opt(year, month, day).expect("a date");
    let thanksgiving = nth_weekday_of_month(year, 11, Weekday::Thu, 4).expect("a Thursday");
    [date(7, 3), thanksgiving + Duration::days(1), date(12, 24)]
}

/// What the original answers for a date.
fn record_of(market: u32, date: [u32; 3]) -> Numbers {
    let answer = HoursCall::TradingHours.original(&on(market, date));
    answer.expect("an answer")[1..].to_vec()
}

/// A line of RECORDS.
fn record(line: &'static str) -> (&'static str, Numbers) {
    let (about, numbers) = line.split_once(": ").expect("a record");
    (about, [MONDAY.to_vec(), parse(numbers)].concat())
}

/// The times of a record, without those of absent parts.
fn times_of(record: &[u32]) -> Vec<u32> {
    let places = time_places(HoursCall::MarketClose, record, Part::Present);
    places.map(|place| record[place]).collect()
}

/// These times and the seconds before them, and the ends of the day.
fn around(times: Vec<u32>) -> Vec<u32> {
    let mut all = BTreeSet::from([0, 86_399]);
    all.extend(times.iter().map(|time| time.saturating_sub(1)));
    all.extend(times);
    all.into_iter().collect()
}

/// The first second of the day, and the seconds around the regular end.
fn around_the_regular_end(record: &[u32]) -> Vec<u32> {
    vec![0, record[7] - 1, record[7], record[7] + 1]
}
