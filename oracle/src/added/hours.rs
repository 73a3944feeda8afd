//! Added answers of the calls about hours: their errors 8, 5 and 7, and numbers of absent parts, which are passed over.

use crate::added::faults::{self, time_places, Part, Wrong};
use crate::added::{NO_DATES, NO_MARKETS};
use crate::call::hours::{HoursCall, HOURS_CALLS};
use crate::numbers::{every_market, parts, with_each, without_repeats, Numbers, OnNumbers};
use crate::rows::inputs::hours::WHOLE;
use crate::tally::Tally;
use std::fmt::Debug;

const WRONG: Wrong = Wrong {
    markets: NO_MARKETS,
    dates: NO_DATES,
    times: &[86_400, 86_401, 1 << 17, 1 << 31, u32::MAX],
};

/// Of years in which is_open answers, and of others.
const SOME_DATES: [[u32; 3]; 3] = [[2020, 1, 1], [2025, 11, 28], [2030, 12, 31]];
const MORE_DATES: [[u32; 3]; 3] = [[1, 1, 1], [2000, 2, 29], [9999, 12, 31]];
const SOME_TIMES: [u32; 4] = [0, 34_200, 57_600, 86_399];
/// The has_ fields of a record, and numbers for them.
const HAS: [usize; 3] = [3, 8, 11];
const HAS_NUMBERS: [u32; 4] = [0, 1, 256, u32::MAX];

/// Whether all is right.
pub fn run() -> bool {
    // Each is run, also after one that is not right.
    HOURS_CALLS
        .into_iter()
        .fold(true, |all, call| all & errors(call) & absent_parts(call))
}

fn errors(call: HoursCall) -> bool {
    let kinds = faults::kinds(call, &faultless(call), &WRONG);
    kinds.iter().fold(true, |all, kind| {
        let title = format!("{}, error {} for {}", call.name(), kind.error, kind.about);
        all & check(call, title, &kind.inputs, |input| {
            call.error(kind.error, input)
        })
    })
}

/// The original has no numbers there: what it answers without them is due.
fn absent_parts(call: HoursCall) -> bool {
    let mut inputs = faultless(call);
    inputs.retain(|input| time_places(call, input, Part::Absent).next().is_some());
    if inputs.is_empty() {
        return true;
    }
    let title = format!("{}, numbers above 86399 in absent parts", call.name());
    check(call, title, &inputs, |input| {
        call.original(input).expect("an answer")
    })
}

pub fn check(
    call: impl OnNumbers,
    title: String,
    inputs: &[Numbers],
    due: impl Fn(&[u32]) -> Numbers,
) -> bool {
    check_answers(
        title,
        inputs,
        |input| call.library(input),
        |input| call.original(input),
        |input| due(input),
    )
}

/// Compares the library with the answer that is due, and shows what the original does.
pub fn check_answers<I: Debug, A: PartialEq + Debug>(
    title: String,
    inputs: &[I],
    library: impl Fn(&I) -> A,
    original: impl Fn(&I) -> Option<A>,
    due: impl Fn(&I) -> A,
) -> bool {
    let mut tally = Tally::new(title);
    for input in inputs {
        tally.compare(input, library(input), due(input));
    }
    let right = tally.close(inputs.len() as u64);
    show_original(inputs, original);
    right
}

/// At the first input; if it cannot be asked there, also at the first where it can.
fn show_original<I: Debug, A: Debug>(inputs: &[I], original: impl Fn(&I) -> Option<A>) {
    let words = |answer: Option<A>| match answer {
        Some(answer) => format!("{answer:?}"),
        None => "cannot be asked".to_string(),
    };
    let mut answers = inputs.iter().map(|input| (input, original(input)));
    let Some((input, first)) = answers.next() else {
        return;
    };
    let cannot = first.is_none();
    println!("    the original at {input:?}: {}", words(first));
    let later = answers.find(|(_, answer)| cannot && answer.is_some());
    if let Some((input, answer)) = later {
        println!("    at {input:?}: {}", words(answer));
    }
}

/// Inputs without a fault. In records each part is there, or absent with numbers that are no times.
fn faultless(call: HoursCall) -> Vec<Numbers> {
    match call {
        HoursCall::TradingHours => every_market(&[SOME_DATES, MORE_DATES].concat()),
        HoursCall::IsOpen => with_each(&SOME_TIMES, &every_market(&SOME_DATES)),
        HoursCall::SessionNew => {
            let mut sessions = times(2);
            sessions.retain(|session| session[0] != session[1]);
            sessions
        }
        HoursCall::SessionContains => times(3),
        HoursCall::TradingHoursNew => without_repeats(records().iter().map(|record| parts(record))),
        HoursCall::IsEarlyClose | HoursCall::MarketClose => records(),
        HoursCall::WithEarlyClose | HoursCall::IsOpenAt => with_each(&[0, 57_599], &records()),
    }
}

fn times(how_many: usize) -> Vec<Numbers> {
    (0..how_many).fold(vec![vec![]], |inputs, _| with_each(&SOME_TIMES, &inputs))
}

fn records() -> Vec<Numbers> {
    let has = HAS
        .iter()
        .fold(vec![vec![]], |numbers, _| with_each(&HAS_NUMBERS, &numbers));
    let records = has
        .iter()
        .flat_map(|has| WRONG.times.iter().map(|&number| record(has, number)));
    without_repeats(records)
}

/// With these has_ fields, and the number in every place of an absent part.
fn record(has: &[u32], number: u32) -> Numbers {
    let mut record = WHOLE.to_vec();
    for (&place, &has) in HAS.iter().zip(has) {
        record[place] = has;
    }
    let absent: Vec<usize> = time_places(HoursCall::MarketClose, &record, Part::Absent).collect();
    absent.into_iter().for_each(|place| record[place] = number);
    record
}
