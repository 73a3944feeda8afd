//! Added answers of trading_days_in_month and count_trading_days: errors 8, 5 and 9, and error 1 for a month of a year outside
//! 1 to 9999.

use crate::added::hours::check;
use crate::added::{MARKETS, MONTHS, NO_DATES, NO_MARKETS, NO_MONTHS, NO_YEARS};
use crate::call::ranges::{days_of_month, RangeCall};
use crate::library::Date;
use crate::numbers::{with_each, without_repeats, Numbers, OnNumbers};
use crate::random::Random;
use crate::tally::Tally;
use crate::ANSWERED_YEARS;
use std::slice;

const ROOMS: &[u32] = &[0, 1, 22, 31];
/// Years in which a month has error 1, and dates with which a count may have it.
pub const OTHER_YEARS: &[u32] = &[1, 1970, 2019, 2031, 9999];
const OTHER_DATES: &[[u32; 3]] = &[[1, 1, 1], [2019, 12, 31], [2031, 1, 1], [9999, 12, 31]];
const SOME_DATES: &[[u32; 3]] = &[[2020, 1, 1], [2025, 11, 28], [2030, 12, 31]];

/// What a call takes before the start and the end, and its error for numbers that are none such.
pub struct First<'a> {
    pub right: &'a [u32],
    pub wrong: &'a [u32],
    pub error: u32,
    pub about: &'static str,
}

pub const MARKET: First = First {
    right: MARKETS,
    wrong: NO_MARKETS,
    error: 8,
    about: "a market above 4",
};

/// Whether all is right.
pub fn run() -> bool {
    // Each is run, also after one that is not right.
    months() & counts()
}

fn months() -> bool {
    let call = RangeCall::TradingDaysInMonth;
    let answered: Vec<u32> = ANSWERED_YEARS.collect();
    let years = [&answered[..], OTHER_YEARS, NO_YEARS].concat();
    let any_months = [MONTHS, NO_MONTHS].concat();
    let no_year = "a year outside 1 to 9999, with 1970-01-01";
    error(
        call,
        8,
        "a market above 4",
        all_of(&[NO_MARKETS, &answered, MONTHS, &[31]]),
    ) & error(
        call,
        8,
        "a market above 4, before 1, 2 and 9",
        all_of(&[NO_MARKETS, &years, &any_months, ROOMS]),
    ) & error(
        call,
        1,
        no_year,
        all_of(&[MARKETS, NO_YEARS, MONTHS, ROOMS]),
    ) & error(
        call,
        1,
        &format!("{no_year}, before 2"),
        all_of(&[MARKETS, NO_YEARS, NO_MONTHS, ROOMS]),
    ) & error(call, 9, "too little room", too_little_room())
}

/// Every month with every number of bytes that are too few.
fn too_little_room() -> Vec<Numbers> {
    let answered: Vec<u32> = ANSWERED_YEARS.collect();
    let months = all_of(&[MARKETS, &answered, MONTHS]);
    let too_little = months.iter().flat_map(|month| {
        let rooms: Vec<u32> = (0..days_of_month(month)).collect();
        with_each(&rooms, slice::from_ref(month))
    });
    too_little.collect()
}

fn counts() -> bool {
    let call = RangeCall::CountTradingDays;
    wrong_ranges(call, &MARKET, ["5 and 1", "1"], |ranges| ranges)
}

/// The error of what is first, and error 5, of a call on date ranges: each alone and before the later errors.
pub fn wrong_ranges(
    call: impl OnNumbers,
    first: &First,
    [after_first, after_5]: [&str; 2],
    inputs: impl Fn(Vec<Numbers>) -> Vec<Numbers>,
) -> bool {
    let error = |number, name: &str, ranges| error(call, number, name, inputs(ranges));
    let error_first = |name: &str, dates: &[[u32; 3]]| {
        let ranges = between(first.wrong, dates, dates);
        error(first.error, name, ranges)
    };
    let error_5 = |name: &str, starts, ends| error(5, name, between(first.right, starts, ends));
    let all = [SOME_DATES, OTHER_DATES, NO_DATES].concat();
    let [about, start, end, both] = [
        first.about,
        "a start that is no date",
        "an end that is no date",
        "two that are no dates",
    ];
    let later = |about: &str, errors: &str| format!("{about}, before {errors}");
    error_first(about, SOME_DATES)
        & error_first(&later(about, after_first), &all)
        & error_5(start, NO_DATES, SOME_DATES)
        & error_5(end, SOME_DATES, NO_DATES)
        & error_5(both, NO_DATES, NO_DATES)
        & error_5(&later(start, after_5), NO_DATES, OTHER_DATES)
        & error_5(&later(end, after_5), OTHER_DATES, NO_DATES)
}

/// Each first number with each start and each end.
fn between(firsts: &[u32], starts: &[[u32; 3]], ends: &[[u32; 3]]) -> Vec<Numbers> {
    let ranges = firsts.iter().flat_map(|&first| {
        starts.iter().flat_map(move |start| {
            ends.iter()
                .map(move |end| [&[first], &start[..], end].concat())
        })
    });
    ranges.collect()
}

/// The start is before 2020, or the end after 2030.
pub fn outside(firsts: &[u32]) -> Vec<Numbers> {
    let (before, after) = OTHER_DATES.split_at(2);
    let any = [SOME_DATES, OTHER_DATES].concat();
    let ranges = [between(firsts, before, &any), between(firsts, &any, after)];
    without_repeats(ranges.into_iter().flatten())
}

/// The start is after the end: also after 2030, or the end before 2020, which is no error 1.
pub fn reversed(firsts: &[u32]) -> Vec<Numbers> {
    let (before, after) = OTHER_DATES.split_at(2);
    let (starts, ends) = ([SOME_DATES, after].concat(), [before, SOME_DATES].concat());
    let mut ranges = between(firsts, &starts, &ends);
    ranges.retain(|range| range[1..4] > range[4..]);
    ranges
}

/// What the count takes, or another call on date ranges.
pub fn range(first: u32, [start, end]: [Date; 2]) -> Numbers {
    let numbers = [start, end].map(|date| [date.year, date.month, date.day]);
    [&[first], numbers.as_flattened()].concat()
}

/// The first and the last.
pub fn ends<T: Copy>(days: &[T]) -> [T; 2] {
    [days[0], days[days.len() - 1]]
}

/// From one of the days to another, so many times.
pub fn random_stretches<T>(days: &[T], times: u32) -> impl Iterator<Item = &[T]> {
    let mut random = Random::new(&[]);
    (0..times).map(move |_| {
        let mut places = [(); 2].map(|()| random.below(days.len() as u32) as usize);
        places.sort();
        &days[places[0]..=places[1]]
    })
}

/// What the original makes is due.
pub fn answers(call: impl OnNumbers, about: &str, inputs: Vec<Numbers>) -> bool {
    let mut tally = Tally::new(format!("{}, {about}", call.name()));
    for input in &inputs {
        let due = call.original(input).expect("an answer");
        tally.compare(input, call.library(input), due);
    }
    tally.close(inputs.len() as u64)
}

/// Every choice of one number from each list, in order.
pub fn all_of(lists: &[&[u32]]) -> Vec<Numbers> {
    lists
        .iter()
        .fold(vec![vec![]], |inputs, list| with_each(list, &inputs))
}

pub fn error(call: impl OnNumbers, number: u32, name: &str, inputs: Vec<Numbers>) -> bool {
    let title = format!("{}, error {number} for {name}", call.name());
    check(call, title, &inputs, |input| call.error(number, input))
}
