//! How long the search for a day good for all five markets takes: beside a search with the original's is_trading_day, and beside a
//! loop in C over tc_is_trading_day. With the inputs it is said how many days there are, in the mean, up to the first good one, or
//! up to the end if there is none.

use crate::bench::ranges::Ranges;
use crate::bench::report::Report;
use crate::bench::summary;
use crate::bench::times::in_turn;
use crate::call::common_days::bit;
use crate::library::{common_trading_day, Date, OptionalDate, OptionalDateResult};
use crate::original::common_days as original;
use crate::original::{calendars, days_of, of_date};
use crate::ANSWERED_YEARS;
use chrono::NaiveDate;
use std::hint::black_box;
use trading_calendar::TradingCalendar;

const CALL: &str = "common_trading_day";
/// How often the longest stretch is searched in a round, so that there is something to measure.
const TIMES: usize = 100;

// Of common_day.c.
unsafe extern "C" {
    safe fn first_common_day(markets: u8, start: Date, end: Date) -> OptionalDate;
}

pub fn run(report: &mut Report) {
    let calendars = calendars();
    let searches = searches(&calendars).map(|ranges| Search::new(&calendars, ranges));
    for search in &searches {
        search.beside_the_original(report, &calendars);
    }
    println!(
        "\ncommon_trading_day beside a loop over tc_is_trading_day, which cc compiled with -O3:"
    );
    let mut report = Report::new("Loop", report.rounds);
    for search in &searches {
        search.beside_the_loop(&mut report);
    }
    summary::print(&report);
}

/// The months, every stretch of days without a good one, and the longest of these.
fn searches(calendars: &[TradingCalendar]) -> [Ranges; 3] {
    let days: Vec<_> = ANSWERED_YEARS.flat_map(days_of).collect();
    let is_good =
        |(_, day): &(Date, NaiveDate)| original::all_trade(calendars, *day).expect("an answer");
    let closed = days.split(is_good).filter(|days| !days.is_empty());
    let longest = closed.clone().max_by_key(|days| days.len());
    let longest = std::iter::repeat_n(longest.expect("a weekend"), TIMES);
    let [months, ..] = Ranges::all();
    [
        months,
        Ranges::new(
            "All stretches of 2020 to 2030 without a good day",
            closed.map(copied),
        ),
        Ranges::new(
            "2022-04-29 to 2022-05-08, the longest such stretch",
            longest.map(copied),
        ),
    ]
}

fn copied<T: Copy>(days: &[T]) -> impl Iterator<Item = T> + '_ {
    days.iter().copied()
}

struct Search {
    inputs: String,
    ranges: Ranges,
    /// All five markets. The compiler does not know it.
    markets: u8,
}

impl Search {
    /// Both sides find a day in the same date ranges, and the loop the same day as the original.
    fn new(calendars: &[TradingCalendar], ranges: Ranges) -> Search {
        let all: u32 = (0..5).map(bit).sum();
        let markets = black_box(all as u8);
        let mut days = 0;
        for (&[start, end], range) in ranges.original.iter().zip(&ranges.library) {
            let first = original::first_common_day(calendars, start, end).expect("an answer");
            let (plain, library) = (by_loop(markets, range), by_library(markets, range));
            let found = u32::from(first.is_some());
            assert_eq!(
                [plain.found, library.error, library.found],
                [found, 0, found]
            );
            assert_eq!(plain.date, first.map(of_date).unwrap_or_default());
            days += (first.unwrap_or(end) - start).num_days() + 1;
        }
        let mean = days as f64 / ranges.library.len() as f64;
        let inputs = format!(
            "{}, all five markets, {mean:.1} days to search",
            ranges.title
        );
        Search {
            inputs,
            ranges,
            markets,
        }
    }

    fn beside_the_original(&self, report: &mut Report, calendars: &[TradingCalendar]) {
        let (ranges, markets) = (&self.ranges, self.markets);
        let pair = in_turn(
            report.rounds,
            (&ranges.original, move |[start, end]| {
                original::first_common_day(calendars, *start, *end)
            }),
            (&ranges.library, move |range| by_library(markets, range)),
        );
        report.add(CALL, &self.inputs, vec![pair]);
    }

    fn beside_the_loop(&self, report: &mut Report) {
        let (ranges, markets) = (&self.ranges.library, self.markets);
        let pair = in_turn(
            report.rounds,
            (ranges, move |range| by_loop(markets, range)),
            (ranges, move |range| by_library(markets, range)),
        );
        report.add(CALL, &self.inputs, vec![pair]);
    }
}

#[inline]
fn by_library(markets: u8, [start, end]: &[Date; 2]) -> OptionalDateResult {
    common_trading_day(markets, *start, *end)
}

#[inline]
fn by_loop(markets: u8, [start, end]: &[Date; 2]) -> OptionalDate {
    first_common_day(markets, *start, *end)
}
