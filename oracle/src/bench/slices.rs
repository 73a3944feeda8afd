//! How long slices of an order take: beside a list made of the original's count, and beside the library's own count of the same
//! days.

use crate::bench::ranges::{count, Ranges};
use crate::bench::report::Report;
use crate::bench::summary;
use crate::bench::times::in_turn;
use crate::library::{slice_order, Date, SliceResult};
use crate::original::calendars;
use crate::original::slices as original;
use std::cell::{RefCell, RefMut};
use std::hint::black_box;

const CALL: &str = "slice_order";
/// The shares of each order.
const QUANTITY: u32 = 1_000_000;
/// Enough for every date range.
pub const ENTRIES: usize = 3000;

pub fn run(report: &mut Report) {
    let all = Ranges::all();
    for ranges in &all {
        check(ranges);
        beside_the_original(report, ranges);
    }
    beside_the_count(report.rounds, &all);
}

/// Lent to one call after the other.
pub struct Buffer(RefCell<[u32; ENTRIES]>);

impl Buffer {
    pub fn new() -> Buffer {
        Buffer(RefCell::new([0; ENTRIES]))
    }

    /// So many entries from its start.
    #[inline]
    pub fn lend(&self, room: usize) -> RefMut<'_, [u32]> {
        RefMut::map(self.0.borrow_mut(), |entries| &mut entries[..room])
    }

    /// By the library, with so much room.
    #[inline]
    pub fn slice(&self, market: u32, [start, end]: &[Date; 2], room: usize) -> SliceResult {
        let out = &mut self.lend(room);
        slice_order(market, black_box(QUANTITY), *start, *end, out)
    }
}

/// Both sides have the same slices.
fn check(ranges: &Ranges) {
    for (calendar, market) in calendars().iter().zip(0..) {
        for ([start, end], range) in ranges.original.iter().zip(&ranges.library) {
            let due = original::slice_order(calendar, QUANTITY, *start, *end).expect("slices");
            let buffer = Buffer::new();
            let answer = buffer.slice(market, range, ENTRIES);
            let fields = [answer.error, answer.per_day, answer.remainder];
            assert_eq!(fields, [0, due.per_day, due.remainder]);
            assert_eq!(*buffer.lend(answer.count as usize), due.list);
        }
    }
}

/// The original's user makes a list, the library's lends one that is there.
fn beside_the_original(report: &mut Report, ranges: &Ranges) {
    let (rounds, buffer) = (report.rounds, &Buffer::new());
    report.on_markets(CALL, ranges.title, |calendar, market| {
        in_turn(
            rounds,
            (&ranges.original, move |[start, end]| {
                original::slice_order(calendar, black_box(QUANTITY), *start, *end)
            }),
            (&ranges.library, move |range| {
                buffer.slice(market, range, ENTRIES)
            }),
        )
    });
}

fn beside_the_count(rounds: usize, all: &[Ranges]) {
    println!("\nslice_order beside the library's count_trading_days on the same date ranges:");
    let (mut report, buffer) = (Report::new("Count", rounds), &Buffer::new());
    for Ranges { title, library, .. } in all {
        report.on_markets(CALL, title, |_, market| {
            in_turn(
                rounds,
                (library, move |range| count(market, range)),
                (library, move |range| buffer.slice(market, range, ENTRIES)),
            )
        });
    }
    summary::print(&report);
}
