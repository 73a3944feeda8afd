//! The answers of the calls on numbers, for the rows that the safe types rule out: no market, no date, no time, no weekday, years
//! and counts past their types, and a buffer that is too small.

use crate::fields::Fields;
use trading_calendar::ffi::{self, *};

/// None if there is no such kind of row, or it takes other inputs.
pub fn answer(kind: &str, inputs: &[u32]) -> Option<Vec<u32>> {
    let fields = match (kind, inputs) {
        ("nth_weekday_of_month", &[year, month, weekday, nth]) => {
            let nth = nth.try_into().ok()?;
            tc_nth_weekday_of_month(year, month, weekday, nth).fields()
        }
        ("last_weekday_of_month", &[year, month, weekday]) => {
            tc_last_weekday_of_month(year, month, weekday).fields()
        }
        ("calculate_easter", &[year]) => tc_calculate_easter(year).fields(),
        ("calculate_good_friday", &[year]) => tc_calculate_good_friday(year).fields(),
        ("calculate_easter_monday", &[year]) => tc_calculate_easter_monday(year).fields(),
        ("is_trading_day", &[market, y, m, d]) => tc_is_trading_day(market, y, m, d).fields(),
        ("is_holiday", &[market, y, m, d]) => tc_is_holiday(market, y, m, d).fields(),
        ("next_trading_day", &[market, y, m, d]) => tc_next_trading_day(market, y, m, d).fields(),
        ("previous_trading_day", &[market, y, m, d]) => {
            tc_previous_trading_day(market, y, m, d).fields()
        }
        ("trading_days_in_month", &[market, year, month, room]) => {
            let mut days = vec![255; room as usize];
            let answer = ffi::trading_days_in_month(market, year, month, &mut days);
            (answer, days).fields()
        }
        ("count_trading_days", &[market, y, m, d, to_y, to_m, to_d]) => {
            tc_count_trading_days(market, y, m, d, to_y, to_m, to_d).fields()
        }
        _ => return about_hours(kind, inputs),
    };
    Some(fields)
}

fn about_hours(kind: &str, inputs: &[u32]) -> Option<Vec<u32>> {
    let fields = match (kind, inputs) {
        ("trading_hours", &[market, y, m, d]) => tc_trading_hours(market, y, m, d).fields(),
        ("is_open", &[market, y, m, d, time]) => tc_is_open(market, y, m, d, time).fields(),
        ("session_new", &[start, end]) => tc_session_new(start, end).fields(),
        ("session_contains", &[start, end, time]) => {
            tc_session_contains(Session { start, end }, time).fields()
        }
        ("trading_hours_new", &[y, m, d, a, b, has_pre, c, e, has_after, f, g]) => {
            let session = |start, end| Session { start, end };
            let (regular, pre, after) = (session(a, b), session(c, e), session(f, g));
            tc_trading_hours_new(y, m, d, regular, has_pre, pre, has_after, after).fields()
        }
        ("with_early_close", &[.., time]) => tc_with_early_close(record(inputs)?, time).fields(),
        ("is_early_close", _) => tc_is_early_close(record(inputs)?).fields(),
        ("market_close", _) => tc_market_close(record(inputs)?).fields(),
        ("is_open_at", &[.., time]) => tc_is_open_at(record(inputs)?, time).fields(),
        _ => return None,
    };
    Some(fields)
}

/// The first 13 numbers.
pub fn record(inputs: &[u32]) -> Option<Hours> {
    let [year, month, day, has_pre_market, a, b, c, d, has_after_hours, e, f, has_early_close, early_close] =
        *inputs.first_chunk()?;
    let session = |start, end| Session { start, end };
    Some(Hours {
        date: Date { year, month, day },
        has_pre_market,
        pre_market: session(a, b),
        regular: session(c, d),
        has_after_hours,
        after_hours: session(e, f),
        has_early_close,
        early_close,
    })
}
