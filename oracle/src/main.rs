//! The library beside the original: oracle/run builds and starts this.

mod added;
mod bench;
mod call;
mod compare;
mod library;
mod numbers;
mod original;
mod random;
mod rows;
mod tally;

use std::io;
use std::ops::RangeInclusive;
use std::process::ExitCode;

/// The years of dates [date], and those in which is_holiday and is_trading_day answer [year-check].
const YEARS: RangeInclusive<u32> = 1..=LAST_YEAR;
const LAST_YEAR: u32 = 9999;
const ANSWERED_YEARS: RangeInclusive<u32> = 2020..=2030;

fn main() -> ExitCode {
    let words: Vec<String> = std::env::args().skip(1).collect();
    let right = match words.iter().map(String::as_str).collect::<Vec<_>>()[..] {
        ["compare"] => compare::run(),
        ["overflows"] => added::overflows(),
        ["rows", "holidays"] => written(rows::holidays::run()),
        ["rows", "hours"] => written(rows::hours::run()),
        ["rows", "neighbours"] => written(rows::neighbours::run()),
        ["rows", "ranges"] => written(rows::ranges::run()),
        ["rows", "sheets"] => written(rows::sheets::run()),
        ["bench"] => bench::run(1001),
        ["bench", "--quick"] => bench::run(101),
        _ => {
            eprintln!(
                "usage: oracle compare|overflows|bench [--quick]|rows holidays|rows hours|rows neighbours|rows ranges|rows sheets"
            );
            false
        }
    };
    if right {
        ExitCode::SUCCESS
    } else {
        ExitCode::FAILURE
    }
}

fn written(outcome: io::Result<()>) -> bool {
    outcome
        .inspect_err(|error| eprintln!("oracle: {error}"))
        .is_ok()
}
