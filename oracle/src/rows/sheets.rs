//! Sheets with the original's days, and errors, as rows for crates/replay/data/sheets.txt, to standard output.

use crate::added::ranges::all_of;
use crate::call::sheets::{Answer, Request, NAME};
use crate::numbers::{of_count, words, Numbers};
use crate::rows::inputs::sheets::*;
use crate::rows::writer::RowWriter;
use std::io;

pub fn run() -> io::Result<()> {
    let mut out = RowWriter::to_standard_output(HEAD)?;
    for (about, requests) in sheets().into_iter().chain(errors()) {
        out.heading(&format!("{NAME}: {about}"))?;
        for request in requests {
            row(&mut out, &request, &request.original().expect("an answer"))?;
        }
    }
    for (error, about, requests) in own_errors() {
        out.own_rule(NAME, error, about)?;
        for request in requests {
            row(&mut out, &request, &request.error(error))?;
        }
    }
    WRONG_ON_PURPOSE
        .into_iter()
        .try_for_each(|wrong| wrong_on_purpose(&mut out, wrong))?;
    out.flush()
}

/// Of the month, with the room that its sheet takes and more, or less.
fn with_room(month: [u32; 3], digits: usize, more: isize) -> Request {
    let request = Request::of_month(month, digits, 0);
    let size = request.original().expect("a sheet").bytes.len();
    Request::new(request.text, size.saturating_add_signed(more))
}

fn sheets() -> Vec<(String, Vec<Request>)> {
    let example = vec![with_room([4, 2022, 12], 1, 0)];
    let months = MONTHS.map(|(about, months)| {
        let each_market = months.iter().flat_map(|&[year, month]| {
            (0..5).map(move |market| with_room([market, year, month], 1, 0))
        });
        (format!("each market, {about}"), each_market.collect())
    });
    let zeros = SOME_MONTHS.map(|month| [2, 5, 9].map(|digits| with_room(month, digits, 0)));
    let more = SOME_MONTHS.map(|month| [1, 8].map(|more| with_room(month, 1, more)));
    let others = [
        ("leading zeros".to_string(), zeros.concat()),
        ("more room than the sheet takes".to_string(), more.concat()),
    ];
    [("the example of docs/SCOPE.md".to_string(), example)]
        .into_iter()
        .chain(months)
        .chain(others)
        .collect()
}

/// Every choice of a market, a year, a month and a room.
fn requests(lists: &[&[u32]]) -> Vec<Request> {
    let of_numbers = |numbers: Numbers| {
        let month = [numbers[0], numbers[1], numbers[2]];
        Request::of_month(month, 1, numbers[3] as usize)
    };
    all_of(lists).into_iter().map(of_numbers).collect()
}

fn errors() -> Vec<(String, Vec<Request>)> {
    let section = |about: &str, lists: &[&[u32]]| (about.to_string(), requests(lists));
    vec![
        section("error 2, no month", &[&[0, 3], &[2025], NO_MONTHS, &[3]]),
        section(
            "error 1 in other years",
            &[&[0, 3], OTHER_YEARS, &[1, 12], &[3]],
        ),
        section(
            "error 1 in other years, no month, with 1970-01-01",
            &[&[0], OTHER_YEARS, NO_MONTHS, &[3]],
        ),
    ]
}

fn own_errors() -> Vec<(u32, &'static str, Vec<Request>)> {
    let too_little = SOME_MONTHS.map(|month| [-200, -1].map(|less| with_room(month, 1, less)));
    let years = |months: &[u32]| requests(&[&[0], NO_YEARS, months, &[3]]);
    let texts = MALFORMED.map(|(about, texts)| {
        let requests = texts.iter().map(|&text| Request::new(text, 3));
        (10, about, requests.collect())
    });
    let others = [
        (8, "no market", requests(&[NO_MARKETS, &[2025], &[3], &[3]])),
        (
            8,
            "no market, before errors 1, 2 and 9",
            requests(&[&[5], &[0, 2019, 2025], &[0, 3], &[0]]),
        ),
        (
            1,
            "a year outside 1 to 9999, with 1970-01-01",
            years(&[1, 12]),
        ),
        (
            1,
            "a year outside 1 to 9999, before error 2",
            years(NO_MONTHS),
        ),
        (9, "no room, and a byte too few", too_little.concat()),
    ];
    texts.into_iter().chain(others).collect()
}

fn wrong_on_purpose(out: &mut RowWriter, wrong: Wrong) -> io::Result<()> {
    let (right, room, text, fields, bytes) = wrong;
    let request = Request::new(text, room);
    let due = due(&request);
    let answer = words(&fields) + &quoted(bytes.as_bytes());
    assert!(
        bytes.len() == room && answer != of_answer(&due),
        "not wrong: {answer}"
    );
    out.heading(&format!("wrong on purpose: {right}"))?;
    out.line(&format!("{} ={answer}", question(&request)))
}

/// With errors 10 and 9 where the original cannot be asked, or its sheet does not fit.
fn due(request: &Request) -> Answer {
    match request.original() {
        None => request.error(10),
        Some(answer) if answer.bytes.len() > request.room => request.error(9),
        Some(answer) => answer,
    }
}

fn row(out: &mut RowWriter, request: &Request, answer: &Answer) -> io::Result<()> {
    out.line(&format!("{} ={}", question(request), of_answer(answer)))
}

fn question(Request { text, room }: &Request) -> String {
    let text = if text.is_empty() {
        " \"\"".to_string()
    } else {
        quoted(text)
    };
    format!("{NAME} {room}{text}")
}

fn of_answer(Answer { fields, bytes }: &Answer) -> String {
    words(&of_count(*fields)) + &quoted(bytes)
}

/// Text in quotes, and numbers for the bytes that are not put there.
fn quoted(bytes: &[u8]) -> String {
    let is_text = |byte: &u8| matches!(byte, b'\n' | b' '..=b'~') && !b"\"\\".contains(byte);
    let items = bytes
        .chunk_by(|a, b| is_text(a) && is_text(b))
        .map(|run| match is_text(&run[0]) {
            true => format!(" \"{}\"", run.escape_ascii()),
            false => format!(" {}", run[0]),
        });
    items.collect()
}
