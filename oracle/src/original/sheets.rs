//! The month sheet as a Rust host would make it of the original's days.

use crate::library::CountResult;
use crate::original::ranges::of_error;
use chrono::Datelike;
use std::fmt::Write;
use trading_calendar::TradingCalendar;

/// The market, the year and the month of a text, if it is of the form [sheet-input].
pub fn read(text: &[u8]) -> Option<[u32; 3]> {
    let text = std::str::from_utf8(text).ok()?;
    let (market, text) = read_line(text, "market=")?;
    let (year, text) = read_line(text, "year=")?;
    let (month, text) = read_line(text, "month=")?;
    text.is_empty().then_some([market, year, month])
}

/// The number of the line, and the text after it.
fn read_line<'a>(text: &'a str, name: &str) -> Option<(u32, &'a str)> {
    let (digits, rest) = text.strip_prefix(name)?.split_once('\n')?;
    let are_digits = digits.bytes().all(|byte| byte.is_ascii_digit());
    let is_number = are_digits && (1..=9).contains(&digits.len());
    is_number.then(|| (digits.parse().expect("a number"), rest))
}

/// The text of [sheet-output] with the original's days, or its error.
pub fn month_sheet(
    calendar: &TradingCalendar,
    [market, year, month]: [u32; 3],
) -> Result<String, CountResult> {
    let days = calendar
        .trading_days_in_month(year as i32, month)
        .map_err(of_error)?;
    let count = days.len();
    let mut sheet = format!("market={market}\nyear={year}\nmonth={month}\ncount={count}\ndays=");
    for (i, date) in days.iter().enumerate() {
        let comma = if i == 0 { "" } else { "," };
        write!(sheet, "{comma}{}", date.day()).expect("a string takes any text");
    }
    sheet.push('\n');
    Ok(sheet)
}
