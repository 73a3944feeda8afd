//! How long sessions take: made, and asked about a time.

use crate::bench::report::Report;
use crate::bench::times::in_turn;
use crate::library::{tc_session_contains, tc_session_new, Session};
use crate::original::hours::{self as original, time};

const HOUR: usize = 3600;
const QUARTER: usize = HOUR / 4;

pub fn run(report: &mut Report) {
    session_new(report);
    session_contains(report);
}

/// The times of a day that are so many seconds apart.
fn times(step: usize) -> impl Iterator<Item = u32> {
    (0..86_400).step_by(step)
}

/// With every start and end of these times.
fn sessions(step: usize) -> impl Iterator<Item = Session> {
    times(step).flat_map(move |start| times(step).map(move |end| Session { start, end }))
}

/// One in 96 has equal ends, an error. `ok` spares the original the question whether the error has a text to drop, which the
/// compiler does not ask where it knows the answer.
fn session_new(report: &mut Report) {
    let libraries: Vec<Session> = sessions(QUARTER).collect();
    let originals: Option<Vec<_>> = sessions(QUARTER).map(original::session).collect();
    let pair = in_turn(
        report.rounds,
        (&originals.expect("sessions"), |it| {
            trading_calendar::Session::new(it.start, it.end).ok()
        }),
        (&libraries, |it| tc_session_new(it.start, it.end)),
    );
    let inputs = "All starts and ends by quarters of an hour";
    report.add("session_new", inputs, vec![pair]);
}

fn session_contains(report: &mut Report) {
    let at_times = |session| times(HOUR).map(move |time| (session, time));
    let libraries: Vec<(Session, u32)> = sessions(HOUR).flat_map(at_times).collect();
    let of_original = |&(session, at): &_| Some((original::session(session)?, time(at)?));
    let originals: Option<Vec<_>> = libraries.iter().map(of_original).collect();
    let pair = in_turn(
        report.rounds,
        (&originals.expect("sessions"), |it| it.0.contains(it.1)),
        (&libraries, |it| tc_session_contains(it.0, it.1)),
    );
    let inputs = "All starts, ends and times by hours";
    report.add("session_contains", inputs, vec![pair]);
}
