//! The trading days of a month and the counts on any numbers at all: what the library answers, and what the original does.

use crate::call::{calendar, date, year};
use crate::library::{tc_count_trading_days, trading_days_in_month};
use crate::numbers::{of_count, Numbers, OnNumbers};
use crate::original::ranges::{self as original, UNTOUCHED};

/// A month call takes the market, the year, the month and the room of its buffer; every byte of that is UNTOUCHED before, and the
/// answer has them all after its fields.
#[derive(Clone, Copy, PartialEq)]
pub enum RangeCall {
    TradingDaysInMonth,
    CountTradingDays,
}

impl OnNumbers for RangeCall {
    fn name(self) -> &'static str {
        match self {
            RangeCall::TradingDaysInMonth => "trading_days_in_month",
            RangeCall::CountTradingDays => "count_trading_days",
        }
    }

    fn library(self, input: &[u32]) -> Numbers {
        match (self, input) {
            (RangeCall::TradingDaysInMonth, &[market, year, month, room]) => {
                let mut buffer = vec![UNTOUCHED; room as usize];
                let answer = trading_days_in_month(market, year, month, &mut buffer);
                let bytes: Numbers = buffer.into_iter().map(u32::from).collect();
                [of_count(answer), bytes].concat()
            }
            (RangeCall::CountTradingDays, &[market, y, m, d, end_y, end_m, end_d]) => {
                of_count(tc_count_trading_days(market, y, m, d, end_y, end_m, end_d))
            }
            _ => panic!("not what {} takes: {input:?}", self.name()),
        }
    }

    fn original(self, input: &[u32]) -> Option<Numbers> {
        Some(match (self, input) {
            (RangeCall::TradingDaysInMonth, &[market, y, month, room]) => {
                original::trading_days_in_month(&calendar(market)?, year(y)?, month, room)
            }
            (RangeCall::CountTradingDays, &[market, y, m, d, end_y, end_m, end_d]) => {
                let (start, end) = (date(y, m, d)?, date(end_y, end_m, end_d)?);
                of_count(original::count_trading_days(&calendar(market)?, start, end))
            }
            _ => panic!("not what {} takes: {input:?}", self.name()),
        })
    }

    /// 8 and 5 bring nothing with them; 1 is that of a month whose 1st is no date [month-error-date]; 9 has the number of days.
    fn error(self, number: u32, input: &[u32]) -> Numbers {
        let answer = match number {
            1 => vec![1, 0, 1970, 1, 1],
            9 => vec![9, days_of_month(&input[..3]), 0, 0, 0],
            _ => vec![number, 0, 0, 0, 0],
        };
        let room = match self {
            RangeCall::TradingDaysInMonth => input[3] as usize,
            RangeCall::CountTradingDays => 0,
        };
        [answer, vec![u32::from(UNTOUCHED); room]].concat()
    }
}

/// How many trading days there are in a month: of a market, a year and a month.
pub fn days_of_month(month: &[u32]) -> u32 {
    let input = [month, &[0]].concat();
    let answer = RangeCall::TradingDaysInMonth.original(&input);
    answer.expect("a list")[1]
}
