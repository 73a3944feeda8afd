//! Answers of the original as rows for crates/replay/data/ranges.txt, to standard output.

use crate::added::ranges::all_of;
use crate::added::{MARKETS, MONTHS, NO_MARKETS};
use crate::call::ranges::{days_of_month, RangeCall};
use crate::numbers::{with_each, Numbers, OnNumbers};
use crate::rows::inputs::ranges::*;
use crate::rows::inputs::{NAMES, NO_DATE, NO_MARKET};
use crate::rows::writer::{self, own_rule, section, RowWriter};
use crate::ANSWERED_YEARS;
use std::io;
use std::slice;

type Section = writer::Section<RangeCall>;

const MONTH: RangeCall = RangeCall::TradingDaysInMonth;
const COUNT: RangeCall = RangeCall::CountTradingDays;
const EXAMPLES: &str = "examples of docs/SCOPE.md";

pub fn run() -> io::Result<()> {
    let mut out = RowWriter::to_standard_output(HEAD)?;
    let of_the_original = [months(), month_errors(), counts()].concat();
    let own = [own_month_errors(), own_count_errors()].concat();
    out.sections(of_the_original.into_iter().chain(own))?;
    for (call, wrong) in [(MONTH, WRONG_MONTHS), (COUNT, WRONG_COUNTS)] {
        wrong
            .into_iter()
            .try_for_each(|row| out.wrong_on_purpose(call.name(), row, |input| due(call, input)))?;
    }
    out.flush()
}

/// With error 9 where the original's days do not fit.
fn due(call: RangeCall, input: &[u32]) -> Numbers {
    let answer = call.original(input).expect("an answer");
    match call {
        MONTH if answer[1] > input[3] => call.error(9, input),
        _ => answer,
    }
}

/// Each month with the rooms that its number of days makes.
fn with_rooms(months: &[Numbers], rooms: fn(u32) -> Vec<u32>) -> Vec<Numbers> {
    let inputs = months
        .iter()
        .flat_map(|month| with_each(&rooms(days_of_month(month)), slice::from_ref(month)));
    inputs.collect()
}

fn months() -> Vec<Section> {
    let years: Vec<u32> = ANSWERED_YEARS.collect();
    let full = MARKETS.iter().map(|&market| {
        let about = format!("{}, every month of 2020 to 2030", NAMES[market as usize]);
        let months = all_of(&[&[market], &years, MONTHS]);
        section(MONTH, &about, with_rooms(&months, |days| vec![days]))
    });
    let more = with_rooms(&some_months(), |days| vec![days + 1, MOST_ROOM]);
    let edges = MARKETS
        .iter()
        .flat_map(|&market| EDGE_MONTHS.map(|[year, month]| vec![market, year, month, 23]));
    let about_edges =
        "each market, the first and the last month with an answer, and those beside them";
    let others = [
        section(MONTH, "more room than the days take", more),
        section(MONTH, about_edges, edges.collect()),
    ];
    let example = section(MONTH, EXAMPLES, vec![vec![4, 2022, 12, 21]]);
    [example].into_iter().chain(full).chain(others).collect()
}

fn some_months() -> Vec<Numbers> {
    MONTHS_WITH_ROOM.map(|month| month.to_vec()).to_vec()
}

fn month_errors() -> Vec<Section> {
    let section = |about: &str, lists: &[&[u32]]| section(MONTH, about, all_of(lists));
    let beside = [&[2019, 2031], OTHER_YEARS].concat();
    vec![
        section(
            "error 2, no month",
            &[&[0, 3], &[2020, 2025, 2030], NO_MONTHS, &[0, 3]],
        ),
        section(
            "error 1 in other years",
            &[&[0, 3], OTHER_YEARS, SOME_MONTHS, &[0, 3]],
        ),
        section(
            "error 1 in other years, no month, with 1970-01-01",
            &[&[0, 3], &beside, NO_MONTHS, &[0]],
        ),
    ]
}

fn own_month_errors() -> Vec<Section> {
    let own_of =
        |error, about: &str, lists: &[&[u32]]| own_rule(MONTH, error, about, all_of(lists));
    let too_little = with_rooms(&some_months(), |days| vec![0, days - 1]);
    vec![
        own_rule(MONTH, 9, "no room, and a byte too few", too_little),
        own_of(
            1,
            "a year outside 1 to 9999, with 1970-01-01",
            &[&[0, 3], NO_YEARS, SOME_MONTHS, &[0, 3]],
        ),
        own_of(
            1,
            "a year outside 1 to 9999, before error 2",
            &[&[0, 3], NO_YEARS, NO_MONTHS, &[0]],
        ),
        own_of(8, "no market", &[NO_MARKETS, &[2025], &[3], &[23]]),
        own_of(
            8,
            "no market, before errors 1, 2 and 9",
            &[
                &[5, u32::MAX],
                &[0, 2019, 2025, u32::MAX],
                &[0, 3, u32::MAX],
                &[0],
            ],
        ),
    ]
}

fn counts() -> Vec<Section> {
    let each_market = |ranges: &[[u32; 6]]| -> Vec<Numbers> {
        let of_market = |&market| {
            ranges
                .iter()
                .map(move |range| [&[market], &range[..]].concat())
        };
        MARKETS.iter().flat_map(of_market).collect()
    };
    let january = vec![0, 2025, 1, 1, 2025, 1, 31];
    let past_the_end = each_market(&[[2031, 1, 1, 2030, 12, 31], [2031, 1, 1, 2031, 1, 1]]);
    let years: Vec<[u32; 6]> = ANSWERED_YEARS
        .map(|year| [year, 1, 1, year, 12, 31])
        .collect();
    let ranges = RANGES.map(|(about, ranges)| {
        section(COUNT, &format!("each market, {about}"), each_market(ranges))
    });
    [
        section(COUNT, EXAMPLES, [vec![january], past_the_end].concat()),
        section(
            COUNT,
            "each market, every year of 2020 to 2030",
            each_market(&years),
        ),
    ]
    .into_iter()
    .chain(ranges)
    .collect()
}

fn own_count_errors() -> Vec<Section> {
    let numbers = |inputs: &[[u32; 7]]| inputs.iter().map(|input| input.to_vec()).collect();
    let starts = NO_DATE
        .2
        .iter()
        .map(|day| [&day[..], &[2025, 12, 31]].concat());
    let ends = NO_DATE
        .2
        .iter()
        .map(|day| [&[day[0], 2025, 1, 1], &day[1..]].concat());
    let markets = NO_MARKET.2.iter().map(|day| [&day[..], &day[1..]].concat());
    vec![
        own_rule(COUNT, 5, "a start that is no date", starts.collect()),
        own_rule(COUNT, 5, "an end that is no date", ends.collect()),
        own_rule(COUNT, 5, "no date, before error 1", numbers(NO_DATE_FIRST)),
        own_rule(COUNT, 8, "no market", markets.collect()),
        own_rule(
            COUNT,
            8,
            "no market, before errors 5 and 1",
            numbers(NO_MARKET_FIRST),
        ),
    ]
}
