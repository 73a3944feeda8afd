//! How long each exported call takes through the C boundary, beside the original with all its years in the cache.
//!
//! Both sides are asked the same in the same loop, `Times::measure`, in turn. Each gets its own form of the inputs, made before and
//! kept apart: the original `NaiveDate`, `NaiveTime`, `TradingHours` and a calendar, as its user holds them, the library numbers
//! and the structs of its header. The original is a dependency in a release build without further settings: where the compiler
//! puts a function of it into the loop, as it does with the smallest, that is what its user gets. A record is copied once on both
//! sides where the call takes it by value: 52 bytes for each such call of the library, a clone for `with_early_close` of the
//! original. What the original allocates is freed in the loop. What the loop itself takes is in the times of both sides, and
//! printed first.

mod common_days;
mod dates;
mod days;
mod filling;
mod hours;
mod overhead;
mod parts;
#[cfg(quantlib)]
mod quantlib;
pub mod ranges;
mod report;
mod sessions;
mod sheets;
mod slices;
mod summary;
mod times;

use days::Days;
use report::Report;

/// False if an exported call was not measured.
pub fn run(rounds: usize) -> bool {
    let days = Days::all();
    let mut report = Report::new("Original", rounds);
    println!("ns per call: {rounds} rounds, the original and the library in turn.");
    overhead::run(rounds, &days);
    dates::run(&mut report);
    days::run(&mut report, &days);
    parts::run(rounds, &days.original);
    ranges::run(&mut report);
    slices::run(&mut report);
    filling::run(rounds);
    common_days::run(&mut report);
    sessions::run(&mut report);
    hours::run(&mut report, &days);
    sheets::run(&mut report);
    #[cfg(quantlib)]
    quantlib::run(rounds, &days);
    #[cfg(not(quantlib))]
    println!("\nQuantLib is left out: this was built without it.");
    summary::conclude(&mut report)
}
