//! Inputs of the calls about hours with a number that the original's types do not have: the library's errors 8, 5 and 7, each
//! alone and before the errors that are checked later [errors-by-call].

use crate::call::hours::HoursCall;
use crate::numbers::{without_repeats, Numbers};
use crate::ANSWERED_YEARS;

/// Numbers that are no market, no date, no time.
pub struct Wrong {
    pub markets: &'static [u32],
    pub dates: &'static [[u32; 3]],
    pub times: &'static [u32],
}

/// Inputs for which an error is due.
pub struct Kind {
    pub error: u32,
    pub about: String,
    pub inputs: Vec<Numbers>,
}

#[derive(Clone, Copy, PartialEq)]
pub enum Part {
    Present,
    Absent,
}

/// Where an input has a time, and the has_ field of its part.
type TimePlace = (usize, Option<usize>);
const RECORD_AND_TIME: &[TimePlace] = &[
    (4, Some(3)),
    (5, Some(3)),
    (6, None),
    (7, None),
    (9, Some(8)),
    (10, Some(8)),
    (12, Some(11)),
    (13, None),
];
const PARTS: &[TimePlace] = &[
    (3, None),
    (4, None),
    (6, Some(5)),
    (7, Some(5)),
    (9, Some(8)),
    (10, Some(8)),
];
const OF_IS_OPEN: &[TimePlace] = &[(4, None)];
const THREE_TIMES: &[TimePlace] = &[(0, None), (1, None), (2, None)];

/// The checks of a call in their order. The last is the one whose error the original has too.
#[derive(Clone, Copy)]
enum Check {
    Market,
    Date,
    Time,
    Last,
}
const CHECKS: [Check; 4] = [Check::Market, Check::Date, Check::Time, Check::Last];

/// Each kind of input with a fault, made of inputs without one.
pub fn kinds(call: HoursCall, faultless: &[Numbers], wrong: &Wrong) -> Vec<Kind> {
    let checks: Vec<Check> = CHECKS
        .into_iter()
        .filter(|check| check.error(call).is_some())
        .collect();
    let own = checks
        .iter()
        .enumerate()
        .filter_map(|(place, check)| Some((check, check.about()?, &checks[place + 1..])));
    own.flat_map(|(check, about, later)| {
        let error = check.error(call).expect("an error");
        let alone = spoil_all(*check, call, faultless, wrong);
        let before = before(later, call, &alone, wrong);
        let about_before = format!("{about}, before {}", error_list(later, call));
        let kind = |about, inputs| Kind {
            error,
            about,
            inputs,
        };
        [kind(about.to_string(), alone), kind(about_before, before)]
    })
    .filter(|kind| !kind.inputs.is_empty())
    .collect()
}

/// These inputs with a fault that is found by one or several of the later checks as well.
fn before(later: &[Check], call: HoursCall, inputs: &[Numbers], wrong: &Wrong) -> Vec<Numbers> {
    later.iter().fold(Vec::new(), |mut spoilt, &check| {
        let further = spoil_all(check, call, &[inputs, &spoilt].concat(), wrong);
        spoilt.extend(further);
        spoilt
    })
}

fn spoil_all(check: Check, call: HoursCall, inputs: &[Numbers], wrong: &Wrong) -> Vec<Numbers> {
    let spoilt = inputs
        .iter()
        .flat_map(|input| check.spoil(call, input, wrong));
    without_repeats(spoilt)
}

fn error_list(checks: &[Check], call: HoursCall) -> String {
    let errors: Vec<String> = checks
        .iter()
        .filter_map(|check| check.error(call))
        .map(|error| error.to_string())
        .collect();
    match &errors[..] {
        [first @ .., last] if !first.is_empty() => {
            format!("errors {} and {last}", first.join(", "))
        }
        _ => format!("error {}", errors.concat()),
    }
}

fn all_time_places(call: HoursCall) -> &'static [TimePlace] {
    match call {
        HoursCall::TradingHours => &[],
        HoursCall::IsOpen => OF_IS_OPEN,
        HoursCall::SessionNew => &THREE_TIMES[..2],
        HoursCall::SessionContains => THREE_TIMES,
        HoursCall::TradingHoursNew => PARTS,
        HoursCall::IsEarlyClose | HoursCall::MarketClose => &RECORD_AND_TIME[..7],
        HoursCall::WithEarlyClose | HoursCall::IsOpenAt => RECORD_AND_TIME,
    }
}

/// Where the date of an input begins.
fn date_place(call: HoursCall) -> Option<usize> {
    match call {
        HoursCall::TradingHours | HoursCall::IsOpen => Some(1),
        HoursCall::SessionNew | HoursCall::SessionContains => None,
        _ => Some(0),
    }
}

/// Where the times of an input are that count, or those of absent parts.
pub fn time_places(
    call: HoursCall,
    input: &[u32],
    which: Part,
) -> impl Iterator<Item = usize> + '_ {
    let is_absent = |has: Option<usize>| has.is_some_and(|has| input[has] == 0);
    let places = all_time_places(call).iter();
    places
        .filter(move |(_, has)| is_absent(*has) == (which == Part::Absent))
        .map(|&(place, _)| place)
}

impl Check {
    /// None if the call has no such check.
    fn error(self, call: HoursCall) -> Option<u32> {
        let takes_market = matches!(call, HoursCall::TradingHours | HoursCall::IsOpen);
        match self {
            Check::Market => takes_market.then_some(8),
            Check::Date => date_place(call).map(|_| 5),
            Check::Time => (!all_time_places(call).is_empty()).then_some(7),
            Check::Last => match call {
                HoursCall::IsOpen => Some(1),
                HoursCall::SessionNew => Some(3),
                HoursCall::WithEarlyClose => Some(4),
                _ => None,
            },
        }
    }

    /// None for the check that the original has too.
    fn about(self) -> Option<&'static str> {
        match self {
            Check::Market => Some("a market above 4"),
            Check::Date => Some("no date"),
            Check::Time => Some("a time above 86399"),
            Check::Last => None,
        }
    }

    /// The input with each fault that this check finds.
    fn spoil(self, call: HoursCall, input: &[u32], wrong: &Wrong) -> Vec<Numbers> {
        let put = |place: usize, numbers: &[u32]| {
            let mut spoilt = input.to_vec();
            spoilt[place..place + numbers.len()].copy_from_slice(numbers);
            spoilt
        };
        match self {
            Check::Market => wrong
                .markets
                .iter()
                .map(|&market| put(0, &[market]))
                .collect(),
            Check::Date => {
                let place = date_place(call).expect("a date");
                wrong.dates.iter().map(|date| put(place, date)).collect()
            }
            Check::Time => time_places(call, input, Part::Present)
                .flat_map(|place| wrong.times.iter().map(move |&time| put(place, &[time])))
                .collect(),
            Check::Last => spoil_for_the_last(call, input)
                .into_iter()
                .map(|(place, number)| put(place, &[number]))
                .collect(),
        }
    }
}

/// Numbers with which the error of the original is due, unless another is due before; other faults of the input stay.
fn spoil_for_the_last(call: HoursCall, input: &[u32]) -> Vec<(usize, u32)> {
    match call {
        HoursCall::IsOpen if ANSWERED_YEARS.contains(&input[1]) => vec![(1, 2019), (1, 2031)],
        HoursCall::SessionNew if input[0] < input[1] => vec![(0, input[1])],
        HoursCall::SessionNew => vec![(1, input[0])],
        HoursCall::WithEarlyClose => vec![(13, input[13].max(input[7]))],
        _ => vec![],
    }
}
