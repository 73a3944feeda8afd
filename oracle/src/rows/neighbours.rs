//! Answers of the original as rows for crates/replay/data/neighbours.txt, to standard output.

use crate::added::without_neighbour;
use crate::call::{date, trading_day_result, Call, Input};
use crate::library::Date;
use crate::numbers::{every_market, Numbers};
use crate::original::{calendars, days_of, of_date, of_neighbour, Neighbour};
use crate::rows::inputs::neighbours::*;
use crate::rows::inputs::NAMES;
use crate::rows::writer::RowWriter;
use chrono::{Duration, NaiveDate};
use std::collections::BTreeSet;
use std::io;
use trading_calendar::TradingCalendar;

/// A kind of row: an example of docs/SCOPE.md, what error 6 is for, and rows that are wrong on purpose.
struct Kind {
    call: Call,
    ask: Neighbour,
    example: Input,
    none_left: &'static str,
    wrong: [[&'static str; 2]; 5],
}

const KINDS: [Kind; 2] = [
    Kind {
        call: Call::NextTradingDay,
        ask: TradingCalendar::next_trading_day,
        example: [3, 2022, 4, 28],
        none_left: "no later trading day until 9999-12-31",
        wrong: WRONG_NEXT,
    },
    Kind {
        call: Call::PreviousTradingDay,
        ask: TradingCalendar::previous_trading_day,
        example: [0, 2020, 1, 1],
        none_left: "no earlier trading day back to 0001-01-01",
        wrong: WRONG_PREVIOUS,
    },
];

type Calendars = [TradingCalendar; 5];

pub fn run() -> io::Result<()> {
    let mut out = RowWriter::to_standard_output(HEAD)?;
    let calendars = calendars();
    for kind in &KINDS {
        answers(&mut out, &calendars, kind)?;
        own_rules(&mut out, kind)?;
    }
    KINDS
        .iter()
        .try_for_each(|kind| wrong_on_purpose(&mut out, &calendars, kind))?;
    out.flush()
}

/// What the original answers, each input once.
fn answers(out: &mut RowWriter, calendars: &Calendars, kind: &Kind) -> io::Result<()> {
    let name = kind.call.name();
    let mut written = BTreeSet::new();
    for (about, mut inputs) in sections(calendars, kind) {
        inputs.retain(|input| written.insert(input.clone()));
        out.heading(&format!("{name}: {about}"))?;
        let mut rows = inputs
            .iter()
            .filter_map(|input| Some((input, answer(calendars, kind, input)?)));
        rows.try_for_each(|(input, answer)| out.row(name, input, &answer))?;
    }
    Ok(())
}

/// Inputs by heading.
fn sections(calendars: &Calendars, kind: &Kind) -> Vec<(String, Vec<Numbers>)> {
    let example = vec![kind.example.to_vec()];
    let examples = [("an example of docs/SCOPE.md".to_string(), example)];
    let closed = (0..5).map(|market| {
        let (name, least) = (NAMES[market], CLOSED_DAYS[market].0);
        let about = format!("{name}, around {least} days or more without trading");
        (about, around_closed_days(calendars, market))
    });
    let dates = DATES.map(|(about, dates)| (format!("each market, {about}"), every_market(dates)));
    examples.into_iter().chain(closed).chain(dates).collect()
}

/// Of each of CLOSED_DAYS the trading day before, the first day, the last, and the trading day after.
fn around_closed_days(calendars: &Calendars, market: usize) -> Vec<Numbers> {
    let (calendar, (least, years)) = (&calendars[market], CLOSED_DAYS[market]);
    let one = Duration::days(1);
    let runs = years
        .iter()
        .flat_map(|&year| days_of(year))
        .filter(|&(_, day)| calendar.is_trading_day(day).expect("an answer"))
        .map(|(_, before)| (before, calendar.next_trading_day(before)))
        .filter(|&(before, after)| (after - before).num_days() > least);
    runs.flat_map(|(before, after)| [before, before + one, after - one, after])
        .map(|date| on(market as u32, date))
        .collect()
}

fn on(market: u32, date: NaiveDate) -> Numbers {
    let Date { year, month, day } = of_date(date);
    vec![market, year, month, day]
}

/// None where error 6 is due.
fn answer(calendars: &Calendars, kind: &Kind, input: &[u32]) -> Option<Numbers> {
    let &[market, year, month, day] = input else {
        panic!("not what {} takes: {input:?}", kind.call.name());
    };
    let given = date(year, month, day).expect("a date");
    let answer = (kind.ask)(&calendars[market as usize], given);
    of_neighbour(given, answer).map(|answer| trading_day_result(answer).to_vec())
}

/// The errors, which the original does not have.
fn own_rules(out: &mut RowWriter, kind: &Kind) -> io::Result<()> {
    let (name, none_left) = (kind.call.name(), without_neighbour(kind.call));
    let last = [(6, kind.none_left, &none_left[..])];
    for (error, about, inputs) in last.into_iter().chain(OWN_RULES) {
        out.own_rule(name, error, about)?;
        inputs
            .iter()
            .try_for_each(|input| out.row(name, input, &[error, 0, 0, 0, 0, 0]))?;
    }
    Ok(())
}

fn wrong_on_purpose(out: &mut RowWriter, calendars: &Calendars, kind: &Kind) -> io::Result<()> {
    let due = |input: &[u32]| answer(calendars, kind, input).expect("an answer");
    let mut rows = kind.wrong.iter();
    rows.try_for_each(|&row| out.wrong_on_purpose(kind.call.name(), row, due))
}
