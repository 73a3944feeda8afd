//! The month sheet, a month as text (added).

use crate::{ffi, Result};

/// So many bytes are enough for every sheet.
pub const LONGEST_SHEET: usize = 104;

/// Writes the sheet `[sheet-output]` that the text asks for `[sheet-input]` from the start of the buffer, and answers how many
/// bytes it has. With an error the buffer stays as it was.
///
/// # Errors
///
/// `MalformedText`, `UnknownMarket`, `DateOutOfRange`, `InvalidDateCalculation` if there is no such month, `BufferTooSmall`: the
/// first that applies.
///
/// ```
/// use trading_calendar::sheet::{month_sheet, LONGEST_SHEET};
///
/// let mut sheet = [0; LONGEST_SHEET];
/// let count = month_sheet(b"market=4\nyear=2022\nmonth=12\n", &mut sheet)?;
/// assert!(sheet[..count].starts_with(b"market=4\nyear=2022\nmonth=12\ncount=21\ndays=1,2,5,"));
/// # Ok::<(), trading_calendar::CalendarError>(())
/// ```
pub fn month_sheet(text: &[u8], out: &mut [u8]) -> Result<usize> {
    ffi::month_sheet(text, out).answered()
}
