//! month_sheet: every month, as texts without leading zeros and of nine digits.

use crate::added::{MONTHS, NO_MONTHS};
use crate::call::sheets::{answer, of_nine_digits, Request};
use crate::compare::ranges::all_months;
use crate::compare::MARKETS;
use crate::original::calendars;
use crate::tally::Tally;
use crate::{ANSWERED_YEARS, YEARS};

/// The most bytes that a sheet is given, more than it has.
const ROOM: usize = 106;
const DIGITS: [usize; 2] = [1, 9];

/// Whether all is right.
pub fn run() -> bool {
    months() & no_months()
}

/// Every market and every month of the years 1 to 9999: those with a sheet with all room from just enough on.
fn months() -> bool {
    let calendars = calendars();
    let mut inside = Tally::new("month_sheet, years 2020 to 2030");
    let mut outside = Tally::new("month_sheet, error 1 in the other years");
    let mut rooms = 0;
    for (market, year, month) in all_months(MONTHS) {
        let numbers = [market, year, month];
        let due = |room| answer(&calendars[market as usize], numbers, room);
        let ask = |tally: &mut Tally, digits, room| {
            let request = Request::of_month(numbers, digits, room);
            tally.compare(&request, request.library(), due(room));
        };
        if ANSWERED_YEARS.contains(&year) {
            let size = due(0).bytes.len();
            for digits in DIGITS {
                rooms += ROOM + 1 - size;
                (size..=ROOM).for_each(|room| ask(&mut inside, digits, room));
            }
        } else {
            ask(&mut outside, 1, 0);
        }
    }
    let other_years = (YEARS.count() - ANSWERED_YEARS.count()) as u64;
    inside.close(rooms as u64) & outside.close(MARKETS * other_years * 12)
}

/// Numbers that are no month: error 2 in 2020 to 2030, else error 1 with 1970-01-01, in both.
fn no_months() -> bool {
    let calendars = calendars();
    let no_months = of_nine_digits(NO_MONTHS);
    let mut tally = Tally::new("month_sheet, errors 1 and 2 for a month outside 1 to 12");
    for (market, year, month) in all_months(&no_months) {
        let numbers = [market, year, month];
        let request = Request::of_month(numbers, 1, 0);
        let due = answer(&calendars[market as usize], numbers, 0);
        tally.compare(&request, request.library(), due);
    }
    tally.close(MARKETS * (YEARS.count() * no_months.len()) as u64)
}
