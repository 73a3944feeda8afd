//! How long month lists and counts take.

use crate::bench::report::Report;
use crate::bench::times::in_turn;
use crate::library::{tc_count_trading_days, trading_days_in_month, Date};
use crate::original::days_of;
use crate::ANSWERED_YEARS;
use chrono::NaiveDate;

/// The first and the last day of each range, in both forms.
pub struct Ranges {
    pub title: &'static str,
    pub original: Vec<[NaiveDate; 2]>,
    pub library: Vec<[Date; 2]>,
}

pub fn run(report: &mut Report) {
    months(report);
    for ranges in Ranges::all() {
        counts(report, &ranges);
    }
}

pub fn all_months() -> impl Iterator<Item = (u32, u32)> {
    ANSWERED_YEARS.flat_map(|year| (1..=12).map(move |month| (year, month)))
}

impl Ranges {
    pub fn all() -> [Ranges; 3] {
        let of_month = |(year, month)| days_of(year).filter(move |(date, _)| date.month == month);
        let all_days = ANSWERED_YEARS.flat_map(days_of);
        [
            Ranges::new("All months of 2020 to 2030", all_months().map(of_month)),
            Ranges::new("All years of 2020 to 2030", ANSWERED_YEARS.map(days_of)),
            Ranges::new("2020-01-01 to 2030-12-31", std::iter::once(all_days)),
        ]
    }

    pub fn new<T>(title: &'static str, ranges: impl Iterator<Item = T>) -> Ranges
    where
        T: Iterator<Item = (Date, NaiveDate)>,
    {
        let (library, original) = ranges.map(ends).unzip();
        Ranges {
            title,
            original,
            library,
        }
    }
}

fn ends(mut days: impl Iterator<Item = (Date, NaiveDate)>) -> ([Date; 2], [NaiveDate; 2]) {
    let first = days.next().expect("a day");
    let last = days.last().unwrap_or(first);
    ([first.0, last.0], [first.1, last.1])
}

/// The original makes a list of dates, the library writes bytes into a buffer of 31.
fn months(report: &mut Report) {
    let rounds = report.rounds;
    let months: Vec<(u32, u32)> = all_months().collect();
    let title = "All months of 2020 to 2030";
    report.on_markets("trading_days_in_month", title, |calendar, market| {
        in_turn(
            rounds,
            (&months, move |&(year, month)| {
                calendar.trading_days_in_month(year as i32, month)
            }),
            (&months, move |&(year, month)| {
                trading_days_in_month(market, year, month, &mut [0; 31])
            }),
        )
    });
}

fn counts(report: &mut Report, ranges: &Ranges) {
    let rounds = report.rounds;
    report.on_markets("count_trading_days", ranges.title, |calendar, market| {
        in_turn(
            rounds,
            (&ranges.original, move |[start, end]| {
                calendar.count_trading_days(*start, *end)
            }),
            (&ranges.library, move |range| count(market, range)),
        )
    });
}

#[inline]
pub fn count(market: u32, [from, to]: &[Date; 2]) -> u32 {
    let Date { year, month, day } = *from;
    tc_count_trading_days(market, year, month, day, to.year, to.month, to.day).count
}
