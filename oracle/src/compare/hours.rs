//! The calls about hours at every input that both sides answer, or at the edges and at random where there are too many.

use crate::compare::records;
use crate::compare::{all_days, ALL_DAYS, ANSWERED_DAYS, MARKETS};
use crate::library::*;
use crate::original::hours::{self as original, time};
use crate::original::{calendars, of_result};
use crate::random::Random;
use crate::tally::Tally;
use crate::ANSWERED_YEARS;
use chrono::Timelike;
use std::collections::BTreeSet;
use trading_calendar::constants::*;

/// How many random records and sessions are asked about.
pub const RANDOM: u64 = 4_000_000;

/// Whether all is right.
pub fn run() -> bool {
    let edges = edge_times();
    trading_hours()
        & is_open(&edges)
        & sessions_at_edges(&edges)
        & sessions_at_random(&edges)
        & records::at_edges(&edges)
        & records::at_random(&edges)
}

/// The ends of the day, and each constant of the original with the seconds beside it.
fn edge_times() -> Vec<u32> {
    let constants = [
        US_PREMARKET_OPEN,
        US_REGULAR_OPEN,
        US_EARLY_CLOSE,
        US_REGULAR_CLOSE,
        US_AFTERHOURS_CLOSE,
        UK_REGULAR_OPEN,
        UK_EARLY_CLOSE,
        UK_REGULAR_CLOSE,
        JP_REGULAR_OPEN,
        JP_REGULAR_CLOSE,
        CA_REGULAR_OPEN,
        CA_EARLY_CLOSE,
        CA_REGULAR_CLOSE,
    ];
    let seconds = constants.map(|constant| constant.num_seconds_from_midnight());
    let mut times = BTreeSet::from([0, 1, 86_398, 86_399]);
    times.extend(seconds.into_iter().flat_map(|time| time - 1..=time + 1));
    times.into_iter().collect()
}

/// Every market, every day of the years 1 to 9999: the whole record.
fn trading_hours() -> bool {
    let calendars = calendars();
    let mut tally = Tally::new("trading_hours, years 1 to 9999");
    for (market, Date { year, month, day }, naive) in all_days() {
        let due = original::trading_hours(&calendars[market as usize], naive);
        let library = tc_trading_hours(market, year, month, day);
        tally.compare(&[market, year, month, day], library, due);
    }
    tally.close(MARKETS * ALL_DAYS)
}

/// Every market and day: in the years with answers at every edge time, in the others at one time, another each day.
fn is_open(edges: &[u32]) -> bool {
    let calendars = calendars();
    let mut inside = Tally::new("is_open, years 2020 to 2030");
    let mut outside = Tally::new("is_open, error 1 in the other years");
    for (number, (market, date, naive)) in (0_u32..).zip(all_days()) {
        let Date { year, month, day } = date;
        let ask = |tally: &mut Tally, at: u32| {
            let (calendar, time) = (&calendars[market as usize], time(at).expect("a time"));
            let due = of_result(original::is_open(calendar, naive, time));
            let library = tc_is_open(market, year, month, day, at);
            tally.compare(&[market, year, month, day, at], library, due);
        };
        if ANSWERED_YEARS.contains(&year) {
            edges.iter().for_each(|&at| ask(&mut inside, at));
        } else {
            ask(&mut outside, number % 86_400);
        }
    }
    inside.close(MARKETS * ANSWERED_DAYS * edges.len() as u64)
        & outside.close(MARKETS * (ALL_DAYS - ANSWERED_DAYS))
}

/// Every two edge times.
pub fn sessions(edges: &[u32]) -> impl Iterator<Item = Session> + '_ {
    edges
        .iter()
        .flat_map(|&start| edges.iter().map(move |&end| Session { start, end }))
}

fn sessions_at_edges(edges: &[u32]) -> bool {
    let mut tallies = SessionTallies::new("edge times");
    for session in sessions(edges) {
        tallies.ask(session, edges);
    }
    let times = edges.len() as u64;
    tallies.close(times * times, times)
}

fn sessions_at_random(edges: &[u32]) -> bool {
    let mut random = Random::new(edges);
    let mut tallies = SessionTallies::new("random times");
    for _ in 0..RANDOM {
        tallies.ask(random.session(), &[random.time()]);
    }
    tallies.close(RANDOM, 1)
}

struct SessionTallies {
    new: Tally,
    contains: Tally,
}

impl SessionTallies {
    fn new(which: &str) -> SessionTallies {
        SessionTallies {
            new: Tally::new(format!("session_new, {which}")),
            contains: Tally::new(format!("session_contains, {which}")),
        }
    }

    fn ask(&mut self, session: Session, times: &[u32]) {
        let Session { start, end } = session;
        let due = original::session(session).expect("a session");
        let new = original::session_new(due.start, due.end);
        self.new
            .compare(&[start, end], tc_session_new(start, end), new);
        for &at in times {
            let contains = original::session_contains(&due, time(at).expect("a time"));
            let library = tc_session_contains(session, at);
            self.contains.compare(&[start, end, at], library, contains);
        }
    }

    fn close(self, sessions: u64, times: u64) -> bool {
        self.new.close(sessions) & self.contains.close(sessions * times)
    }
}
