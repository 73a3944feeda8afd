//! trading_days_in_month and count_trading_days: every month, and counts between dates of every kind.

use crate::added::{MONTHS, NO_MONTHS};
use crate::call::date;
use crate::call::ranges::RangeCall;
use crate::compare::MARKETS;
use crate::library::{tc_count_trading_days, Date};
use crate::numbers::OnNumbers;
use crate::original::ranges::{count_trading_days, trading_days_in_month};
use crate::original::{calendars, days_of, of_date};
use crate::random::Random;
use crate::rows::inputs::EDGES;
use crate::tally::Tally;
use crate::{ANSWERED_YEARS, YEARS};
use chrono::{Duration, NaiveDate};
use std::ops::RangeInclusive;
use trading_calendar::TradingCalendar;

/// The most bytes that a month is given, more than it has days.
const ROOM: u32 = 33;
/// Ends that each start is counted to, in days after it.
const NEAR: RangeInclusive<i64> = -3..=40;
/// Random counts of each market.
const RANDOM: u64 = 10_000;

/// Whether all is right.
pub fn run() -> bool {
    months() & no_months() & near_counts() & edge_counts() & random_counts()
}

/// Every market and every month of the years 1 to 9999: those with an answer with all room from just enough on.
fn months() -> bool {
    let calendars = calendars();
    let mut inside = Tally::new("trading_days_in_month, years 2020 to 2030");
    let mut outside = Tally::new("trading_days_in_month, error 1 in the other years");
    let mut rooms = 0;
    for (market, year, month) in all_months(MONTHS) {
        let due =
            |room| trading_days_in_month(&calendars[market as usize], year as i32, month, room);
        let ask = |tally: &mut Tally, room| {
            let input = [market, year, month, room];
            tally.compare(
                &input,
                RangeCall::TradingDaysInMonth.library(&input),
                due(room),
            );
        };
        if ANSWERED_YEARS.contains(&year) {
            let days = due(0)[1];
            rooms += u64::from(ROOM + 1 - days);
            (days..=ROOM).for_each(|room| ask(&mut inside, room));
        } else {
            ask(&mut outside, 0);
        }
    }
    let other_years = (YEARS.count() - ANSWERED_YEARS.count()) as u64;
    inside.close(rooms) & outside.close(MARKETS * other_years * 12)
}

/// Numbers that are no month: error 2 in 2020 to 2030, else error 1 with 1970-01-01, in both.
fn no_months() -> bool {
    let calendars = calendars();
    let mut tally = Tally::new("trading_days_in_month, errors 1 and 2 for a month outside 1 to 12");
    for (market, year, month) in all_months(NO_MONTHS) {
        let (input, calendar) = ([market, year, month, 0], &calendars[market as usize]);
        let due = trading_days_in_month(calendar, year as i32, month, 0);
        tally.compare(&input, RangeCall::TradingDaysInMonth.library(&input), due);
    }
    tally.close(MARKETS * (YEARS.count() * NO_MONTHS.len()) as u64)
}

pub fn all_months(months: &[u32]) -> impl Iterator<Item = (u32, u32, u32)> + '_ {
    (0..5).flat_map(move |market| {
        YEARS.flat_map(move |year| months.iter().map(move |&month| (market, year, month)))
    })
}

struct Counts {
    calendars: [TradingCalendar; 5],
    tally: Tally,
}

impl Counts {
    fn new(which: &str) -> Counts {
        Counts {
            calendars: calendars(),
            tally: Tally::new(format!("count_trading_days, {which}")),
        }
    }

    fn ask(&mut self, market: u32, start: NaiveDate, end: NaiveDate) {
        let due = count_trading_days(&self.calendars[market as usize], start, end);
        let [start, end] = [start, end].map(of_date);
        let Date { year, month, day } = start;
        let library = tc_count_trading_days(market, year, month, day, end.year, end.month, end.day);
        let input = [market, year, month, day, end.year, end.month, end.day];
        self.tally.compare(&input, library, due);
    }
}

/// The years with answers, and one on each side.
fn days_around() -> Vec<NaiveDate> {
    (2019..=2031)
        .flat_map(days_of)
        .map(|(_, day)| day)
        .collect()
}

fn near_counts() -> bool {
    let mut counts = Counts::new("from each day of 2019 to 2031 to days near it");
    let days = days_around();
    for market in 0..5 {
        for &start in &days {
            NEAR.for_each(|days| counts.ask(market, start, start + Duration::days(days)));
        }
    }
    let near = NEAR.count() as u64;
    counts.tally.close(MARKETS * days.len() as u64 * near)
}

/// All with all.
fn edge_counts() -> bool {
    let mut counts = Counts::new("edge dates");
    let edges = EDGES.map(|[year, month, day]| date(year, month, day).expect("a date"));
    for market in 0..5 {
        for start in edges {
            edges.iter().for_each(|&end| counts.ask(market, start, end));
        }
    }
    counts
        .tally
        .close(MARKETS * (edges.len() * edges.len()) as u64)
}

fn random_counts() -> bool {
    let mut random = Random::new(&[]);
    let mut around = Counts::new("random dates of 2019 to 2031");
    let mut any = Counts::new("random dates of the years 1 to 9999");
    let days = days_around();
    for market in (0..RANDOM).flat_map(|_| 0..5) {
        let [start, end] = [(); 2].map(|()| days[random.below(days.len() as u32) as usize]);
        around.ask(market, start, end);
        let [start, end] = [(); 2]
            .map(|()| random.date())
            .map(|Date { year, month, day }| date(year, month, day).expect("a date"));
        any.ask(market, start, end);
    }
    around.tally.close(MARKETS * RANDOM) & any.tally.close(MARKETS * RANDOM)
}
