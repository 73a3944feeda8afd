//! The questions about hours to the original, and its answers in the form of the library's.

use crate::call::date;
use crate::library::{BoolResult, Date, Hours, HoursResult, Session, SessionResult, TimeResult};
use crate::original::{of_date, of_result};
use chrono::{NaiveDate, NaiveTime, Timelike};
use trading_calendar as original;
use trading_calendar::{CalendarError, Result, TradingCalendar, TradingHours};

/// None if the original has no such time; so too below.
#[inline]
pub fn time(seconds: u32) -> Option<NaiveTime> {
    NaiveTime::from_num_seconds_from_midnight_opt(seconds, 0)
}

#[inline]
pub fn session(Session { start, end }: Session) -> Option<original::Session> {
    Some(original::Session {
        start: time(start)?,
        end: time(end)?,
    })
}

pub fn record(hours: &Hours) -> Option<TradingHours> {
    let Date { year, month, day } = hours.date;
    Some(TradingHours {
        date: date(year, month, day)?,
        pre_market: part(hours.has_pre_market, || session(hours.pre_market))?,
        regular: session(hours.regular)?,
        after_hours: part(hours.has_after_hours, || session(hours.after_hours))?,
        early_close: part(hours.has_early_close, || time(hours.early_close))?,
    })
}

/// The numbers of an absent part are passed over [host-answers].
fn part<T>(has: u32, numbers: impl FnOnce() -> Option<T>) -> Option<Option<T>> {
    match has {
        0 => Some(None),
        _ => numbers().map(Some),
    }
}

pub fn trading_hours(calendar: &TradingCalendar, date: NaiveDate) -> HoursResult {
    of_hours(calendar.trading_hours(date))
}

/// The original asks the two together only for the present moment [is-open].
#[inline]
pub fn is_open(calendar: &TradingCalendar, date: NaiveDate, time: NaiveTime) -> Result<bool> {
    Ok(calendar.is_trading_day(date)? && calendar.trading_hours(date).is_open_at(time))
}

pub fn session_new(start: NaiveTime, end: NaiveTime) -> SessionResult {
    match original::Session::new(start, end) {
        Ok(session) => SessionResult {
            error: 0,
            session: of_session(session),
        },
        Err(CalendarError::InvalidSession) => SessionResult {
            error: 3,
            ..Default::default()
        },
        Err(error) => panic!("not an error of this call: {error}"),
    }
}

pub fn session_contains(session: &original::Session, time: NaiveTime) -> BoolResult {
    of_result(Ok(session.contains(time)))
}

/// A record of the parts of this one: its early close is passed over.
pub fn trading_hours_new(parts: TradingHours) -> HoursResult {
    let TradingHours {
        date,
        pre_market,
        regular,
        after_hours,
        ..
    } = parts;
    of_hours(TradingHours::new(date, regular, pre_market, after_hours))
}

pub fn with_early_close(hours: TradingHours, time: NaiveTime) -> HoursResult {
    match hours.with_early_close(time) {
        Ok(hours) => of_hours(hours),
        Err(CalendarError::InvalidTime(_)) => HoursResult {
            error: 4,
            ..Default::default()
        },
        Err(error) => panic!("not an error of this call: {error}"),
    }
}

pub fn is_early_close(hours: &TradingHours) -> BoolResult {
    of_result(Ok(hours.is_early_close()))
}

pub fn market_close(hours: &TradingHours) -> TimeResult {
    TimeResult {
        error: 0,
        seconds: hours.market_close().num_seconds_from_midnight(),
    }
}

pub fn is_open_at(hours: &TradingHours, time: NaiveTime) -> BoolResult {
    of_result(Ok(hours.is_open_at(time)))
}

fn of_hours(hours: TradingHours) -> HoursResult {
    let (has_pre_market, pre_market) = of_part(hours.pre_market.map(of_session));
    let (has_after_hours, after_hours) = of_part(hours.after_hours.map(of_session));
    let early_close = hours.early_close;
    let (has_early_close, early_close) =
        of_part(early_close.map(|time| time.num_seconds_from_midnight()));
    let hours = Hours {
        date: of_date(hours.date),
        has_pre_market,
        pre_market,
        regular: of_session(hours.regular),
        has_after_hours,
        after_hours,
        has_early_close,
        early_close,
    };
    HoursResult { error: 0, hours }
}

fn of_part<T: Default>(part: Option<T>) -> (u32, T) {
    part.map_or((0, T::default()), |part| (1, part))
}

fn of_session(session: original::Session) -> Session {
    Session {
        start: session.start.num_seconds_from_midnight(),
        end: session.end.num_seconds_from_midnight(),
    }
}
