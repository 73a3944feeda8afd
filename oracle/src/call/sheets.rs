//! The month sheet on any text: what the library answers, and what the original's days make.

use crate::call::calendar;
use crate::library::{self, CountResult, Date};
use crate::original::sheets as original;
use std::fmt::{self, Debug, Formatter};
use trading_calendar::TradingCalendar;

pub const NAME: &str = "month_sheet";
/// Every byte of a buffer before a call. No sheet has it.
const UNTOUCHED: u8 = b'.';
/// The largest number that a text can have.
const LARGEST: u32 = 999_999_999;

/// The text, and the room of the buffer.
#[derive(Clone)]
pub struct Request {
    pub text: Vec<u8>,
    pub room: usize,
}

/// The answer, and every byte of the buffer after the call.
#[derive(PartialEq)]
pub struct Answer {
    pub fields: CountResult,
    pub bytes: Vec<u8>,
}

impl Request {
    pub fn new(text: impl Into<Vec<u8>>, room: usize) -> Request {
        let text = text.into();
        Request { text, room }
    }

    /// With so many digits in each number, or as many as it has.
    pub fn of_month([market, year, month]: [u32; 3], digits: usize, room: usize) -> Request {
        let text =
            format!("market={market:0digits$}\nyear={year:0digits$}\nmonth={month:0digits$}\n");
        Request::new(text, room)
    }

    pub fn library(&self) -> Answer {
        let mut bytes = vec![UNTOUCHED; self.room];
        let fields = library::month_sheet(&self.text, &mut bytes);
        Answer { fields, bytes }
    }

    /// None if there is nothing to ask the original: no text of the form, or no market.
    pub fn original(&self) -> Option<Answer> {
        let month = original::read(&self.text)?;
        Some(answer(&calendar(month[0])?, month, self.room))
    }

    /// The answer with an error that the original does not have: 1 is that of a month whose 1st is no date [month-error-date], 9 has
    /// the number of bytes, and the others have nothing.
    pub fn error(&self, number: u32) -> Answer {
        let of_number = |count, date| CountResult {
            error: number,
            count,
            date,
        };
        let none = Date::default();
        let fields = match number {
            1 => of_number(0, FIRST_OF_1970),
            9 => of_number(self.original().expect("a sheet").fields.count, none),
            _ => of_number(0, none),
        };
        untouched(fields, self.room)
    }
}

const FIRST_OF_1970: Date = Date {
    year: 1970,
    month: 1,
    day: 1,
};

/// By the original. It has no buffer: bytes of a sheet that do not fit are there too.
pub fn answer(calendar: &TradingCalendar, month: [u32; 3], room: usize) -> Answer {
    match original::month_sheet(calendar, month) {
        Ok(sheet) => {
            let mut bytes = sheet.into_bytes();
            let count = bytes.len();
            bytes.resize(count.max(room), UNTOUCHED);
            let fields = CountResult {
                count: count as u32,
                ..Default::default()
            };
            Answer { fields, bytes }
        }
        Err(fields) => untouched(fields, room),
    }
}

fn untouched(fields: CountResult, room: usize) -> Answer {
    let bytes = vec![UNTOUCHED; room];
    Answer { fields, bytes }
}

/// With LARGEST in the place of those that have more than nine digits.
pub fn of_nine_digits(numbers: &[u32]) -> Vec<u32> {
    let mut numbers: Vec<u32> = numbers.iter().map(|&number| number.min(LARGEST)).collect();
    numbers.dedup();
    numbers
}

impl Debug for Request {
    fn fmt(&self, out: &mut Formatter) -> fmt::Result {
        let length = self.text.len();
        let shown = self.text[..length.min(100)].escape_ascii();
        write!(out, "{length} bytes, \"{shown}\", room {}", self.room)
    }
}

impl Debug for Answer {
    fn fmt(&self, out: &mut Formatter) -> fmt::Result {
        write!(out, "{:?}, \"{}\"", self.fields, self.bytes.escape_ascii())
    }
}
