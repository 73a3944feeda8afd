//! The last tables: every exported call in one row for each kind of inputs, and which of them are slower than the original.

use crate::bench::report::{Report, Table};
use std::collections::BTreeSet;

/// Every call that the library exports is declared here.
const HEADER: &str = include_str!("../../../include/trading_calendar.h");

/// The medians of the rounds, in the mean of the markets, and in the market where the library does worst.
pub fn print(report: &Report) {
    let (other, rounds) = (report.other, report.rounds);
    println!(
        "\nSummary of {other} and library, medians of {rounds} rounds, mean of the markets:\n"
    );
    println!("| Call | Inputs | {other}, ns | Library, ns | Library / {other} | Worst market | Its ratio |");
    println!("|---|---|---|---|---|---|---|");
    report.tables.iter().for_each(row);
}

fn row(table: &Table) {
    let ([other, library], (market, worst)) = (table.medians(), table.worst());
    let (call, inputs, ratio) = (table.call, &table.inputs, table.ratio());
    println!(
        "| {call} | {inputs} | {other:.1} | {library:.1} | {ratio:.2} | {market} | {worst:.2} |"
    );
}

/// In the order of the header, and how many calls are above 1.00. False if an exported call was not measured.
pub fn conclude(report: &mut Report) -> bool {
    let calls = exported();
    let place = |table: &Table| calls.iter().position(|call| *call == table.call);
    report.tables.sort_by_key(|table| place(table));
    print(report);
    let of = calls.len();
    let is_measured = |call: &str| report.tables.iter().any(|table| table.call == call);
    let left_out: Vec<_> = calls
        .into_iter()
        .filter(|call| !is_measured(call))
        .collect();
    println!();
    list(
        "Above 1.00 in the mean of the markets",
        &above(report, Table::ratio),
        of,
    );
    list(
        "Above 1.00 in the worst market",
        &above(report, |table| table.worst().1),
        of,
    );
    list("Not measured", &left_out, of);
    of > 0 && left_out.is_empty()
}

/// A ratio counts as it is printed, to two digits.
fn above(report: &Report, ratio: impl Fn(&Table) -> f64) -> Vec<&'static str> {
    let tables = report.tables.iter();
    let tables = tables.filter(|table| (100.0 * ratio(table)).round() > 100.0);
    let calls: BTreeSet<_> = tables.map(|table| table.call).collect();
    calls.into_iter().collect()
}

fn list(title: &str, calls: &[&str], of: usize) {
    let colon = if calls.is_empty() { "" } else { ": " };
    println!(
        "{title}: {} of {of} calls{colon}{}",
        calls.len(),
        calls.join(", ")
    );
}

/// The names of the header that stand before a parenthesis, without tc_.
fn exported() -> Vec<&'static str> {
    let words = HEADER.split(|it: char| it.is_whitespace() || it == '*');
    let declared = words.filter_map(|word| word.strip_prefix("tc_")?.split_once('('));
    declared.map(|(name, _)| name).collect()
}
