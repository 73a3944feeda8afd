//! What the loop itself takes, alone and with calls that do nothing: no call of the library can take less than these.

use crate::bench::days::Days;
use crate::bench::times::{in_turn, Times};
use crate::library::{BoolResult, Hours, OnDate};
use std::hint::black_box;

extern "C" fn on_date(_: u32, _: u32, _: u32, _: u32) -> BoolResult {
    BoolResult::default()
}

extern "C" fn on_record(_: Hours) -> BoolResult {
    BoolResult::default()
}

pub fn run(rounds: usize, days: &Days) {
    let days = &days.library;
    let records = vec![Hours::default(); days.len()];
    // The compiler does not know what is called.
    let on_date: OnDate<BoolResult> = black_box(on_date);
    let on_record: extern "C" fn(Hours) -> BoolResult = black_box(on_record);
    let dates = in_turn(
        rounds,
        (days, |_| ()),
        (days, move |it| on_date(0, it.year, it.month, it.day)),
    );
    let records = in_turn(
        rounds,
        (&records, |_| ()),
        (&records, move |it| on_record(*it)),
    );
    let [alone, with_date] = dates.sides.each_ref().map(Times::median);
    let [_, with_record] = records.sides.each_ref().map(Times::median);
    println!("In every time: the loop, {alone:.1} ns.");
    println!("With a call that does nothing: {with_date:.1} ns on a date, {with_record:.1} ns on a record.");
}
