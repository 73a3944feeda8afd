//! Inputs and answers of the calls about hours, month lists, counts, slices and common days as lists of numbers.

use crate::library::*;
use std::collections::BTreeSet;

/// The numbers that a call takes, or the fields of its answer, in the order in which C has them.
pub type Numbers = Vec<u32>;

/// A call on any numbers at all.
pub trait OnNumbers: Copy {
    fn name(self) -> &'static str;
    fn library(self, input: &[u32]) -> Numbers;
    /// None if the types of the original have no such numbers.
    fn original(self, input: &[u32]) -> Option<Numbers>;
    /// The answer with an error that the original does not have.
    fn error(self, number: u32, input: &[u32]) -> Numbers;
}

/// The numbers of a record in order, and back.
pub fn of_record(hours: &Hours) -> [u32; 13] {
    [
        hours.date.year,
        hours.date.month,
        hours.date.day,
        hours.has_pre_market,
        hours.pre_market.start,
        hours.pre_market.end,
        hours.regular.start,
        hours.regular.end,
        hours.has_after_hours,
        hours.after_hours.start,
        hours.after_hours.end,
        hours.has_early_close,
        hours.early_close,
    ]
}

pub fn hours(record: &[u32]) -> Hours {
    let &[year, month, day, has_pre_market, pre_start, pre_end, start, end, ref rest @ ..] = record
    else {
        panic!("not a record: {record:?}");
    };
    let &[has_after_hours, after_start, after_end, has_early_close, early_close] = rest else {
        panic!("not a record: {record:?}");
    };
    Hours {
        date: Date { year, month, day },
        has_pre_market,
        pre_market: Session {
            start: pre_start,
            end: pre_end,
        },
        regular: Session { start, end },
        has_after_hours,
        after_hours: Session {
            start: after_start,
            end: after_end,
        },
        has_early_close,
        early_close,
    }
}

/// What trading_hours_new takes, as a record.
pub fn hours_of_parts(parts: &[u32]) -> Hours {
    let (date, sessions) = parts.split_at(3);
    let (regular, others) = sessions.split_at(2);
    let (pre_market, after_hours) = others.split_at(3);
    hours(&[date, pre_market, regular, after_hours, &[0, 0]].concat())
}

/// What trading_hours_new takes, of a record.
pub fn parts(record: &[u32]) -> Numbers {
    [&record[..3], &record[6..8], &record[3..6], &record[8..11]].concat()
}

pub fn of_bool(BoolResult { error, value, date }: BoolResult) -> Numbers {
    vec![error, value, date.year, date.month, date.day]
}

pub fn of_count(CountResult { error, count, date }: CountResult) -> Numbers {
    vec![error, count, date.year, date.month, date.day]
}

pub fn of_slices(answer: SliceResult) -> Numbers {
    let Date { year, month, day } = answer.date;
    let SliceResult {
        error,
        count,
        per_day,
        remainder,
        ..
    } = answer;
    vec![error, count, per_day, remainder, year, month, day]
}

pub fn of_optional_date(answer: OptionalDateResult) -> Numbers {
    let OptionalDateResult { error, found, date } = answer;
    vec![error, found, date.year, date.month, date.day]
}

pub fn of_time(TimeResult { error, seconds }: TimeResult) -> Numbers {
    vec![error, seconds]
}

pub fn of_session(SessionResult { error, session }: SessionResult) -> Numbers {
    vec![error, session.start, session.end]
}

pub fn of_hours(HoursResult { error, hours }: HoursResult) -> Numbers {
    [&[error], &of_record(&hours)[..]].concat()
}

/// Each of the inputs followed by each of the numbers.
pub fn with_each(numbers: &[u32], inputs: &[Numbers]) -> Vec<Numbers> {
    let longer = inputs.iter().flat_map(|input| {
        numbers
            .iter()
            .map(move |&number| [&input[..], &[number]].concat())
    });
    longer.collect()
}

/// Each market with each of the dates.
pub fn every_market(dates: &[[u32; 3]]) -> Vec<Numbers> {
    let inputs = dates
        .iter()
        .flat_map(|date| (0..5).map(move |market| [&[market], &date[..]].concat()));
    inputs.collect()
}

/// In order.
pub fn without_repeats(inputs: impl Iterator<Item = Numbers>) -> Vec<Numbers> {
    BTreeSet::from_iter(inputs).into_iter().collect()
}

/// Decimal numbers with spaces between.
pub fn parse(text: &str) -> Numbers {
    text.split_whitespace()
        .map(|number| number.parse().expect("a number"))
        .collect()
}

/// Each after a space.
pub fn words(numbers: &[u32]) -> String {
    numbers.iter().map(|number| format!(" {number}")).collect()
}
