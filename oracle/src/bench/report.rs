//! The tables of the measured times: one for each call and its inputs, with a row for each market.

use crate::bench::times::{mean, Pair, Times};
use crate::original::{calendars, MARKETS};
use trading_calendar::TradingCalendar;

/// What is measured beside the library, how many rounds each call gets, and what was measured.
pub struct Report {
    pub other: &'static str,
    pub rounds: usize,
    pub tables: Vec<Table>,
}

/// One pair for each market, or one alone if the call takes no market or a set of them.
pub struct Table {
    pub call: &'static str,
    pub inputs: String,
    pub pairs: Vec<Pair>,
}

impl Report {
    pub fn new(other: &'static str, rounds: usize) -> Report {
        Report {
            other,
            rounds,
            tables: vec![],
        }
    }

    /// A call that takes a market: a number for the library, a calendar for the original.
    pub fn on_markets(
        &mut self,
        call: &'static str,
        inputs: &str,
        pair: impl Fn(&TradingCalendar, u32) -> Pair,
    ) {
        let markets = calendars().into_iter().zip(0..);
        let pairs = markets.map(|(calendar, market)| pair(&calendar, market));
        self.add(call, inputs, pairs.collect());
    }

    /// Prints the table.
    pub fn add(&mut self, call: &'static str, inputs: &str, pairs: Vec<Pair>) {
        let table = Table {
            call,
            inputs: format!("{inputs}, {}", pairs[0].inputs),
            pairs,
        };
        table.print(self.other);
        self.tables.push(table);
    }
}

impl Table {
    fn print(&self, other: &str) {
        let (call, inputs) = (self.call, &self.inputs);
        println!("\n{call}. {inputs}:\n");
        println!("| Market | {other}, median | least | Library, median | least | Library / {other}, medians | least |");
        println!("|---|---|---|---|---|---|---|");
        if let [pair] = &self.pairs[..] {
            return row("none", &[pair]);
        }
        for (market, pair) in MARKETS.iter().zip(&self.pairs) {
            row(market.code(), &[pair]);
        }
        row("mean", &self.pairs.iter().collect::<Vec<_>>());
    }

    /// Of the medians, in the mean of the markets.
    pub fn medians(&self) -> [f64; 2] {
        [0, 1].map(|side| {
            mean(
                self.pairs.iter().map(|pair| &pair.sides[side]),
                Times::median,
            )
        })
    }

    pub fn ratio(&self) -> f64 {
        let [other, library] = self.medians();
        library / other
    }

    /// The market in which the library does worst, if the call takes a market, and the ratio there.
    pub fn worst(&self) -> (&'static str, f64) {
        let of_pair = |pair: &Pair| pair.sides[1].median() / pair.sides[0].median();
        let ratios = self.pairs.iter().map(of_pair);
        let of_markets = MARKETS.iter().map(|market| market.code()).zip(ratios);
        let worst = of_markets.max_by(|(_, a), (_, b)| a.total_cmp(b));
        let (market, ratio) = worst.expect("a market");
        let named = if self.pairs.len() == 1 {
            "none"
        } else {
            market
        };
        (named, ratio)
    }
}

fn row(name: &str, pairs: &[&Pair]) {
    let of_sides = |of: fn(&Times) -> f64| {
        [0, 1].map(|side| mean(pairs.iter().map(|pair| &pair.sides[side]), of))
    };
    let (medians, least) = (of_sides(Times::median), of_sides(Times::least));
    println!(
        "| {name} | {:.1} | {:.1} | {:.1} | {:.1} | {:.2} | {:.2} |",
        medians[0],
        least[0],
        medians[1],
        least[1],
        medians[1] / medians[0],
        least[1] / least[0]
    );
}
