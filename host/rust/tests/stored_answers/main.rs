//! Puts every row of crates/replay/data to the binding: to its safe types where these have such inputs, else to its calls on
//! numbers. The rows that differ are those that are wrong on purpose, and counts and lines are those that replay expects.

mod by_numbers;
mod by_types;
mod fields;
mod row;
mod tally;

use row::Row;
use std::collections::BTreeSet;
use std::fs;
use std::process::ExitCode;
use tally::{Asked, Tally};

/// All but malformed.txt, which has no answers.
const FILES: [&str; 7] = [
    "easter.txt",
    "weekdays.txt",
    "holidays.txt",
    "hours.txt",
    "neighbours.txt",
    "ranges.txt",
    "sheets.txt",
];

/// Of years in which no exported call says what is a holiday.
const PASSED_OVER: &str = "holidays_any_year";

fn main() -> ExitCode {
    let stdout = read("stdout");
    let sums = FILES.map(|file| {
        let mut tally = compare(&read(&format!("data/{file}")));
        tally.check(&expected(&stdout, file));
        println!("{file}");
        tally.print();
        tally.sums()
    });
    let sum = |place: usize| sums.iter().map(|sums| sums[place]).sum::<usize>();
    println!(
        "stored answers: {} compared, {} of them by the safe types; {} differ, {} passed over, {} faults",
        sum(0),
        sum(1),
        sum(2),
        sum(3),
        sum(4)
    );
    match sum(4) {
        0 => ExitCode::SUCCESS,
        _ => ExitCode::FAILURE,
    }
}

fn read(path: &str) -> String {
    let path = format!("{}/../../crates/replay/{path}", env!("CARGO_MANIFEST_DIR"));
    fs::read_to_string(&path).unwrap_or_else(|error| panic!("{path}: {error}"))
}

/// The lines of replay's output about the file, but for the last: every row has to be understood.
fn expected(stdout: &str, file: &str) -> BTreeSet<String> {
    let lines = stdout.lines().skip_while(|line| *line != file).skip(1);
    let lines = lines.take_while(|line| *line != "not understood: 0");
    lines.map(str::to_string).collect()
}

fn compare(text: &str) -> Tally {
    let mut tally = Tally::default();
    let mut is_wrong_on_purpose = false;
    for (number, line) in (1..).zip(text.lines()) {
        if line.starts_with('#') {
            is_wrong_on_purpose = line.starts_with("# wrong on purpose");
        } else if !line.is_empty() {
            let differs = compare_row(&mut tally, number, line);
            if differs.is_some_and(|differs| differs != is_wrong_on_purpose) {
                tally.fault(format!("line {number}: {line}"));
            }
        }
    }
    tally
}

/// Whether the row differs from the binding's answer; none if it was not compared.
fn compare_row(tally: &mut Tally, number: usize, line: &str) -> Option<bool> {
    let Some(Row {
        kind,
        inputs,
        stored,
    }) = Row::parse(line)
    else {
        tally.fault(format!("line {number} is not understood: {line}"));
        return None;
    };
    if kind == PASSED_OVER {
        tally.pass_over(&kind);
        return None;
    }
    let by_types = by_types::answer(&kind, &inputs).map(|answer| (Asked::Types, answer));
    let by_numbers = || by_numbers::answer(&kind, &inputs).map(|answer| (Asked::Numbers, answer));
    let Some((asked, answer)) = by_types.or_else(by_numbers) else {
        tally.fault(format!("line {number} takes other inputs: {line}"));
        return None;
    };
    let differs = answer != stored;
    tally.count(&kind, asked);
    if differs {
        tally.differs(&kind, number);
    }
    Some(differs)
}
