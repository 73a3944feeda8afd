//! How long month sheets take.

use crate::bench::ranges::all_months;
use crate::bench::report::Report;
use crate::bench::times::in_turn;
use crate::call::sheets::Request;
use crate::library::month_sheet;
use crate::original::sheets as original;

/// Both read the text. The original's days become a string, the library writes bytes into a buffer of 104.
pub fn run(report: &mut Report) {
    let rounds = report.rounds;
    let title = "All months of 2020 to 2030";
    report.on_markets("month_sheet", title, |calendar, market| {
        let text = |(year, month)| Request::of_month([market, year, month], 1, 0).text;
        let texts: Vec<Vec<u8>> = all_months().map(text).collect();
        in_turn(
            rounds,
            (&texts, move |text| {
                let month = original::read(text).expect("a month");
                original::month_sheet(calendar, month)
            }),
            (&texts, |text| month_sheet(text, &mut [0; 104])),
        )
    });
}
