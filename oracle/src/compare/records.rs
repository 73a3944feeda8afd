//! The calls on a record of hours: every record of edge times that bears on the answer, and random ones.

use crate::call::hours::library_trading_hours_new;
use crate::compare::hours::{sessions, RANDOM};
use crate::library::*;
use crate::numbers::{of_record, parts};
use crate::original::hours::{self as original, time};
use crate::random::Random;
use crate::tally::Tally;
use trading_calendar::TradingHours;

/// Each part with what bears on it, at every edge time: the pre-market session alone; the regular hours, and the after-hours,
/// with every early close and with none. In the first and the last the regular hours are never open.
pub fn at_edges(edges: &[u32]) -> bool {
    let never_open = Session {
        start: 86_399,
        end: 0,
    };
    let closed = Hours {
        date: Date {
            year: 2025,
            month: 3,
            day: 10,
        },
        regular: never_open,
        ..Default::default()
    };
    let pre_markets = sessions(edges).map(|pre_market| Hours {
        has_pre_market: 1,
        pre_market,
        ..closed
    });
    let regulars = sessions(edges).map(|regular| Hours { regular, ..closed });
    let after_hours = sessions(edges).map(|after_hours| Hours {
        has_after_hours: 1,
        after_hours,
        ..closed
    });
    let closing = regulars
        .chain(after_hours)
        .flat_map(|record| with_and_without_early_close(record, edges));

    let mut tallies = RecordTallies::new("edge times");
    for record in pre_markets.chain(closing) {
        tallies.ask(&record, edges);
    }
    let times = edges.len() as u64;
    tallies.close(times * times * (1 + 2 * (1 + times)), times)
}

fn with_and_without_early_close(record: Hours, edges: &[u32]) -> impl Iterator<Item = Hours> + '_ {
    let early_closes = edges.iter().map(move |&early_close| Hours {
        has_early_close: 1,
        early_close,
        ..record
    });
    early_closes.chain([record])
}

pub fn at_random(edges: &[u32]) -> bool {
    let mut random = Random::new(edges);
    let mut tallies = RecordTallies::new("random records");
    for _ in 0..RANDOM {
        tallies.ask(&random.record(), &[random.time()]);
    }
    tallies.close(RANDOM, 1)
}

struct RecordTallies {
    new: Tally,
    is_early_close: Tally,
    market_close: Tally,
    with_early_close: Tally,
    is_open_at: Tally,
}

impl RecordTallies {
    fn new(which: &str) -> RecordTallies {
        let tally = |name| Tally::new(format!("{name}, {which}"));
        RecordTallies {
            new: tally("trading_hours_new"),
            is_early_close: tally("is_early_close"),
            market_close: tally("market_close"),
            with_early_close: tally("with_early_close"),
            is_open_at: tally("is_open_at"),
        }
    }

    fn ask(&mut self, record: &Hours, times: &[u32]) {
        let input = of_record(record);
        let due = original::record(record).expect("a record");
        let new = original::trading_hours_new(due.clone());
        self.new
            .compare(&parts(&input), library_trading_hours_new(record), new);
        let is_early_close = original::is_early_close(&due);
        self.is_early_close
            .compare(&input, tc_is_early_close(*record), is_early_close);
        let market_close = original::market_close(&due);
        self.market_close
            .compare(&input, tc_market_close(*record), market_close);
        times.iter().for_each(|&at| self.ask_at(record, &due, at));
    }

    fn ask_at(&mut self, record: &Hours, due: &TradingHours, at: u32) {
        let mut input = [at; 14];
        input[..13].copy_from_slice(&of_record(record));
        let time = time(at).expect("a time");
        let with_early_close = original::with_early_close(due.clone(), time);
        self.with_early_close
            .compare(&input, tc_with_early_close(*record, at), with_early_close);
        let is_open_at = original::is_open_at(due, time);
        self.is_open_at
            .compare(&input, tc_is_open_at(*record, at), is_open_at);
    }

    fn close(self, records: u64, times: u64) -> bool {
        self.new.close(records)
            & self.is_early_close.close(records)
            & self.market_close.close(records)
            & self.with_early_close.close(records * times)
            & self.is_open_at.close(records * times)
    }
}
