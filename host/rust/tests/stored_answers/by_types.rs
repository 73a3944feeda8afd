//! The answers of the safe types, as the numbers that rows have.

use crate::by_numbers::record;
use crate::fields::Fields;
use trading_calendar::ffi::{self, BoolResult, CountResult, OptionalDate, TradingDayResult};
use trading_calendar::sheet::month_sheet;
use trading_calendar::utils::{easter::*, *};
use trading_calendar::*;

type Numbers = Option<Vec<u32>>;

/// None if the types have no such inputs.
pub fn answer(kind: &str, inputs: &[u32]) -> Numbers {
    match (kind, inputs) {
        ("nth_weekday_of_month", &[y, m, w, nth]) => {
            let nth = nth.try_into().ok()?;
            of_option(nth_weekday_of_month(year(y)?, m, weekday(w)?, nth))
        }
        ("last_weekday_of_month", &[y, m, w]) => {
            of_option(last_weekday_of_month(year(y)?, m, weekday(w)?))
        }
        ("calculate_easter", &[y]) => of_option(calculate_easter(year(y)?).ok()),
        ("calculate_good_friday", &[y]) => of_option(calculate_good_friday(year(y)?).ok()),
        ("calculate_easter_monday", &[y]) => of_option(calculate_easter_monday(year(y)?).ok()),
        ("session_new", &[start, end]) => of_session(Session::new(time(start)?, time(end)?)),
        ("session_contains", &[start, end, at]) => {
            of_bool(Ok(session(start, end)?.contains(time(at)?)))
        }
        ("trading_hours_new", &[y, m, d, a, b, has_pre, c, e, has_after, f, g]) => {
            let (pre_market, after_hours) = (part(has_pre, c, e)?, part(has_after, f, g)?);
            let hours = TradingHours::new(date(y, m, d)?, session(a, b)?, pre_market, after_hours);
            of_hours(Ok(hours))
        }
        ("with_early_close", &[.., at]) => of_hours(hours(inputs)?.with_early_close(time(at)?)),
        ("is_early_close", _) => of_bool(Ok(hours(inputs)?.is_early_close())),
        ("market_close", _) => Some(vec![0, hours(inputs)?.market_close().into()]),
        ("is_open_at", &[.., at]) => of_bool(Ok(hours(inputs)?.is_open_at(time(at)?))),
        ("month_sheet", [room, text @ ..]) => of_sheet(*room, text),
        (_, &[number, ref rest @ ..]) => of_market(kind, market(number)?, rest),
        _ => None,
    }
}

fn of_market(kind: &str, calendar: TradingCalendar, inputs: &[u32]) -> Numbers {
    match (kind, inputs) {
        ("is_trading_day", &[y, m, d]) => of_bool(calendar.is_trading_day(date(y, m, d)?)),
        ("is_holiday", &[y, m, d]) => of_bool(calendar.is_holiday(date(y, m, d)?)),
        ("is_open", &[y, m, d, at]) => of_bool(calendar.is_open(date(y, m, d)?, time(at)?)),
        ("trading_hours", &[y, m, d]) => of_hours(Ok(calendar.trading_hours(date(y, m, d)?))),
        ("next_trading_day", &[y, m, d]) => {
            let date = date(y, m, d)?;
            let day = calendar.next_trading_day_with_distance(date);
            of_day(calendar.next_trading_day(date), day)
        }
        ("previous_trading_day", &[y, m, d]) => {
            let date = date(y, m, d)?;
            let day = calendar.previous_trading_day_with_distance(date);
            of_day(calendar.previous_trading_day(date), day)
        }
        ("trading_days_in_month", &[y, m, room]) => {
            of_month(calendar.trading_days_in_month(year(y)?, m), room as usize)
        }
        ("count_trading_days", &[y, m, d, to_y, to_m, to_d]) => {
            let count = calendar.count_trading_days(date(y, m, d)?, date(to_y, to_m, to_d)?);
            Some(count_result(count).fields())
        }
        ("holidays", &[y]) => {
            let is_holiday = |date: &NaiveDate| calendar.is_holiday(*date) == Ok(true);
            let days = (1..=12)
                .flat_map(|month| dates(y, month))
                .filter(is_holiday);
            Some(days.map(|date| date.month() * 100 + date.day()).collect())
        }
        ("trading_days", &[y, m]) => {
            let trades = |date: &NaiveDate| calendar.is_trading_day(*date) == Ok(true);
            Some(dates(y, m).filter(trades).map(|date| date.day()).collect())
        }
        _ => None,
    }
}

fn year(number: u32) -> Option<i32> {
    number.try_into().ok()
}

fn market(number: u32) -> Option<TradingCalendar> {
    TradingCalendar::new(number.try_into().ok()?).ok()
}

fn date(year: u32, month: u32, day: u32) -> Option<NaiveDate> {
    ffi::Date { year, month, day }.try_into().ok()
}

fn dates(year: u32, month: u32) -> impl Iterator<Item = NaiveDate> {
    (1..=31).filter_map(move |day| date(year, month, day))
}

fn time(seconds: u32) -> Option<NaiveTime> {
    seconds.try_into().ok()
}

fn weekday(number: u32) -> Option<Weekday> {
    use Weekday::*;
    [Mon, Tue, Wed, Thu, Fri, Sat, Sun]
        .get(number as usize)
        .copied()
}

fn session(start: u32, end: u32) -> Option<Session> {
    let (start, end) = (time(start)?, time(end)?);
    Some(Session { start, end })
}

/// None if the part is there and has no times; `Some(None)` if it is absent.
fn part(has: u32, start: u32, end: u32) -> Option<Option<Session>> {
    match has {
        0 => Some(None),
        _ => Some(Some(session(start, end)?)),
    }
}

fn hours(inputs: &[u32]) -> Option<TradingHours> {
    let hours = record(inputs)?;
    let (pre, after) = (hours.pre_market, hours.after_hours);
    Some(TradingHours {
        date: hours.date.try_into().ok()?,
        pre_market: part(hours.has_pre_market, pre.start, pre.end)?,
        regular: session(hours.regular.start, hours.regular.end)?,
        after_hours: part(hours.has_after_hours, after.start, after.end)?,
        early_close: match hours.has_early_close {
            0 => None,
            _ => Some(time(hours.early_close)?),
        },
    })
}

/// 0 without an error. No row has the number of an error that has none.
fn error_number<T>(answer: &Result<T>) -> u32 {
    let number = |error: &CalendarError| error.number().unwrap_or(u32::MAX);
    answer.as_ref().err().map_or(0, number)
}

fn count_result(answer: Result<usize>) -> CountResult {
    let error = error_number(&answer);
    let (count, date) = match answer {
        Ok(count) | Err(CalendarError::BufferTooSmall(count)) => (count, None),
        Err(CalendarError::DateOutOfRange(date)) => (0, Some(date)),
        Err(_) => (0, None),
    };
    CountResult {
        error,
        count: count as u32,
        date: date.map_or_else(ffi::Date::default, Into::into),
    }
}

fn of_bool(answer: Result<bool>) -> Numbers {
    let CountResult { error, count, date } = count_result(answer.map(usize::from));
    let value = count;
    Some(BoolResult { error, value, date }.fields())
}

fn of_option(answer: Option<NaiveDate>) -> Numbers {
    let date = |date: NaiveDate| OptionalDate {
        found: 1,
        date: date.into(),
    };
    Some(answer.map_or_else(OptionalDate::default, date).fields())
}

/// The date of the one answer, and the rest of the other. Neither has a date with an error.
fn of_day(date: Result<NaiveDate>, day: Result<TradingDay>) -> Numbers {
    let error = error_number(&day);
    let date = date.map_or_else(|_| ffi::Date::default(), Into::into);
    let (distance, outside) = day.map_or((0, false), |day| (day.distance, day.outside));
    let outside = outside.into();
    let result = TradingDayResult {
        error,
        date,
        distance,
        outside,
    };
    Some(result.fields())
}

fn of_session(answer: Result<Session>) -> Numbers {
    let error = error_number(&answer);
    let session = answer.map_or_else(|_| ffi::Session::default(), Into::into);
    Some(ffi::SessionResult { error, session }.fields())
}

fn of_hours(answer: Result<TradingHours>) -> Numbers {
    let error = error_number(&answer);
    let hours = answer.map_or_else(|_| ffi::Hours::default(), Into::into);
    Some(ffi::HoursResult { error, hours }.fields())
}

/// The days in a buffer of bytes that were 255; none if they do not fit.
fn of_month(answer: Result<Vec<NaiveDate>>, room: usize) -> Numbers {
    let result = count_result(answer.clone().map(|days| days.len()));
    let mut bytes: Vec<u8> = answer
        .iter()
        .flatten()
        .map(|date| date.day() as u8)
        .collect();
    if bytes.len() > room {
        return None;
    }
    bytes.resize(room, 255);
    Some((result, bytes).fields())
}

fn of_sheet(room: u32, text: &[u32]) -> Numbers {
    let text: Vec<u8> = text
        .iter()
        .map(|&byte| u8::try_from(byte).ok())
        .collect::<Option<_>>()?;
    let mut sheet = vec![b'.'; room as usize];
    let result = count_result(month_sheet(&text, &mut sheet));
    Some((result, sheet).fields())
}
