//! Answers of the original as rows for crates/replay/data/hours.txt, to standard output.

use crate::call::hours::HOURS_CALLS;
use crate::numbers::OnNumbers;
use crate::rows::hours_sections::{errors, is_open, records, sessions, trading_hours};
use crate::rows::inputs::hours::{HEAD, WRONG_ON_PURPOSE};
use crate::rows::writer::RowWriter;
use std::io;

pub fn run() -> io::Result<()> {
    let mut out = RowWriter::to_standard_output(HEAD)?;
    let of_the_original = [trading_hours(), is_open(), sessions(), records()].concat();
    let own = HOURS_CALLS.into_iter().flat_map(errors);
    out.sections(of_the_original.into_iter().chain(own))?;
    wrong_on_purpose(&mut out)?;
    out.flush()
}

/// One row of each kind.
fn wrong_on_purpose(out: &mut RowWriter) -> io::Result<()> {
    let mut rows = HOURS_CALLS.into_iter().zip(WRONG_ON_PURPOSE);
    rows.try_for_each(|(call, row)| {
        out.wrong_on_purpose(call.name(), row, |input| {
            call.original(input).expect("an answer")
        })
    })
}
