//! common_trading_day, which the original does not have: due is one of the days on which every market of the set trades by the
//! original's is_trading_day, or none if there is no such day; errors 12 and 5, and error 1 as of the count.

use crate::added::ranges::{
    answers, ends, outside, random_stretches, range, reversed, wrong_ranges, First,
};
use crate::call::common_days::{bit, found, CommonTradingDay};
use crate::library::Date;
use crate::numbers::{Numbers, OnNumbers};
use crate::original::{calendars, days_of};
use crate::tally::Tally;
use crate::ANSWERED_YEARS;
use std::ops::RangeInclusive;

/// The bytes that are sets [market-set].
const SETS: RangeInclusive<u32> = 1..=31;
/// How many days a short date range has.
const SHORT: RangeInclusive<usize> = 1..=14;
/// Random date ranges for each set.
const RANDOM: u32 = 1000;

/// Whether all is right.
pub fn run() -> bool {
    let sets: Numbers = SETS.collect();
    let no_sets: Numbers = (0..=255).filter(|set| !SETS.contains(set)).collect();
    let first = First {
        right: &sets,
        wrong: &no_sets,
        error: 12,
        about: "an empty set or a bit above 4",
    };
    let outside_title = "error 1 for a start before 2020 or an end after 2030";
    let crossing_title = "error 1 for up to 14 days over the end of 2019 or of 2030";
    let reversed_title = "none for a start after the end";
    // Each is run, also after one that is not right.
    common_days(&all_days())
        & wrong_ranges(CommonTradingDay, &first, ["5 and 1", "1"], |ranges| ranges)
        & answers(CommonTradingDay, outside_title, outside(&sets))
        & answers(CommonTradingDay, crossing_title, crossing(&sets))
        & answers(CommonTradingDay, reversed_title, reversed(&sets))
}

/// A day, and the set of all markets that trade then by the original.
#[derive(Clone, Copy)]
struct Day {
    date: Date,
    trading: u32,
}

/// Of 2020 to 2030, in order.
fn all_days() -> Vec<Day> {
    let calendars = calendars();
    let days = ANSWERED_YEARS.flat_map(days_of).map(|(date, naive)| {
        let trades = |market: &u32| {
            let answer = calendars[*market as usize].is_trading_day(naive);
            answer.expect("an answer")
        };
        let trading = (0..5).filter(trades).map(bit).sum();
        Day { date, trading }
    });
    days.collect()
}

/// Every set with every short date range of these days, and with random ones.
fn common_days(days: &[Day]) -> bool {
    let ranges: Vec<&[Day]> = short(days).chain(random_stretches(days, RANDOM)).collect();
    let name = CommonTradingDay.name();
    let title = |due| format!("{name}, {due}, date ranges of up to 14 days and random ones");
    let mut tallies = ["none", "a day"].map(|due| Tally::new(title(due)));
    let mut meant = [0, 0];
    for set in SETS {
        for days in &ranges {
            let input = range(set, ends(days).map(|day| day.date));
            let library = CommonTradingDay.library(&input);
            let due = due(set, days, &library);
            let which = due[1] as usize;
            tallies[which].compare(&input, library, due);
            meant[which] += 1;
        }
    }
    let [none, found] = tallies;
    none.close(meant[0]) & found.close(meant[1])
}

fn short<T>(days: &[T]) -> impl Iterator<Item = &[T]> {
    SHORT.flat_map(|length| days.windows(length))
}

/// The day of the library if it is one on which every market of the set trades, as which one is left free [common-day]; else the
/// first such day, or none.
fn due(set: u32, days: &[Day], library: &[u32]) -> Numbers {
    let common = days.iter().filter(|day| day.trading & set == set);
    let mut common = common.map(|day| day.date);
    let is_answered = |date: &Date| [date.year, date.month, date.day] == library[2..];
    let answered = common.clone().find(is_answered);
    found(answered.or_else(|| common.next()))
}

/// From a day of 2019 to one of 2020, or of 2030 to one of 2031.
fn crossing(sets: &[u32]) -> Vec<Numbers> {
    let over_the_end = |year| {
        let days: Vec<Date> = [year, year + 1]
            .into_iter()
            .flat_map(days_of)
            .map(|day| day.0)
            .collect();
        let ranges = short(&days).map(ends);
        ranges
            .filter(|[start, end]| start.year < end.year)
            .collect::<Vec<_>>()
    };
    let ranges = [2019, 2030].map(over_the_end).concat();
    let of_set = |&set| ranges.iter().map(move |&ends| range(set, ends));
    sets.iter().flat_map(of_set).collect()
}
