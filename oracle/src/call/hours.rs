//! The calls about hours on any numbers at all: what the library answers, and what the original does.

use crate::call::{calendar, date};
use crate::library::*;
use crate::numbers::{
    hours, hours_of_parts, of_bool, of_hours, of_session, of_time, Numbers, OnNumbers,
};
use crate::original::hours::{self as original, record, session, time};
use crate::original::of_result;

#[derive(Clone, Copy, PartialEq)]
pub enum HoursCall {
    TradingHours,
    IsOpen,
    SessionNew,
    SessionContains,
    TradingHoursNew,
    WithEarlyClose,
    IsEarlyClose,
    MarketClose,
    IsOpenAt,
}

pub const HOURS_CALLS: [HoursCall; 9] = [
    HoursCall::TradingHours,
    HoursCall::IsOpen,
    HoursCall::SessionNew,
    HoursCall::SessionContains,
    HoursCall::TradingHoursNew,
    HoursCall::WithEarlyClose,
    HoursCall::IsEarlyClose,
    HoursCall::MarketClose,
    HoursCall::IsOpenAt,
];

impl OnNumbers for HoursCall {
    fn name(self) -> &'static str {
        match self {
            HoursCall::TradingHours => "trading_hours",
            HoursCall::IsOpen => "is_open",
            HoursCall::SessionNew => "session_new",
            HoursCall::SessionContains => "session_contains",
            HoursCall::TradingHoursNew => "trading_hours_new",
            HoursCall::WithEarlyClose => "with_early_close",
            HoursCall::IsEarlyClose => "is_early_close",
            HoursCall::MarketClose => "market_close",
            HoursCall::IsOpenAt => "is_open_at",
        }
    }

    fn library(self, input: &[u32]) -> Numbers {
        match (self, input) {
            (HoursCall::TradingHours, &[market, y, m, d]) => {
                of_hours(tc_trading_hours(market, y, m, d))
            }
            (HoursCall::IsOpen, &[market, y, m, d, at]) => of_bool(tc_is_open(market, y, m, d, at)),
            (HoursCall::SessionNew, &[start, end]) => of_session(tc_session_new(start, end)),
            (HoursCall::SessionContains, &[start, end, at]) => {
                of_bool(tc_session_contains(Session { start, end }, at))
            }
            (HoursCall::TradingHoursNew, parts) => {
                of_hours(library_trading_hours_new(&hours_of_parts(parts)))
            }
            (HoursCall::WithEarlyClose, [record @ .., at]) => {
                of_hours(tc_with_early_close(hours(record), *at))
            }
            (HoursCall::IsEarlyClose, record) => of_bool(tc_is_early_close(hours(record))),
            (HoursCall::MarketClose, record) => of_time(tc_market_close(hours(record))),
            (HoursCall::IsOpenAt, [record @ .., at]) => of_bool(tc_is_open_at(hours(record), *at)),
            _ => panic!("not what {} takes: {input:?}", self.name()),
        }
    }

    fn original(self, input: &[u32]) -> Option<Numbers> {
        Some(match (self, input) {
            (HoursCall::TradingHours, &[market, y, m, d]) => {
                of_hours(original::trading_hours(&calendar(market)?, date(y, m, d)?))
            }
            (HoursCall::IsOpen, &[market, y, m, d, at]) => {
                let (calendar, date, time) = (calendar(market)?, date(y, m, d)?, time(at)?);
                of_bool(of_result(original::is_open(&calendar, date, time)))
            }
            (HoursCall::SessionNew, &[start, end]) => {
                of_session(original::session_new(time(start)?, time(end)?))
            }
            (HoursCall::SessionContains, &[start, end, at]) => {
                let session = session(Session { start, end })?;
                of_bool(original::session_contains(&session, time(at)?))
            }
            (HoursCall::TradingHoursNew, parts) => {
                of_hours(original::trading_hours_new(record(&hours_of_parts(parts))?))
            }
            (HoursCall::WithEarlyClose, [numbers @ .., at]) => of_hours(
                original::with_early_close(record(&hours(numbers))?, time(*at)?),
            ),
            (HoursCall::IsEarlyClose, numbers) => {
                of_bool(original::is_early_close(&record(&hours(numbers))?))
            }
            (HoursCall::MarketClose, numbers) => {
                of_time(original::market_close(&record(&hours(numbers))?))
            }
            (HoursCall::IsOpenAt, [numbers @ .., at]) => {
                of_bool(original::is_open_at(&record(&hours(numbers))?, time(*at)?))
            }
            _ => panic!("not what {} takes: {input:?}", self.name()),
        })
    }

    /// It brings nothing with it [reading-nothing].
    fn error(self, number: u32, _: &[u32]) -> Numbers {
        match self {
            HoursCall::TradingHours | HoursCall::TradingHoursNew | HoursCall::WithEarlyClose => {
                of_hours(HoursResult {
                    error: number,
                    ..Default::default()
                })
            }
            HoursCall::SessionNew => of_session(SessionResult {
                error: number,
                ..Default::default()
            }),
            HoursCall::MarketClose => of_time(TimeResult {
                error: number,
                ..Default::default()
            }),
            _ => of_bool(BoolResult {
                error: number,
                ..Default::default()
            }),
        }
    }
}

/// The record of its parts, by the library. An early close is not among them.
pub fn library_trading_hours_new(parts: &Hours) -> HoursResult {
    let Date { year, month, day } = parts.date;
    tc_trading_hours_new(
        year,
        month,
        day,
        parts.regular,
        parts.has_pre_market,
        parts.pre_market,
        parts.has_after_hours,
        parts.after_hours,
    )
}
