//! The markets, as src/markets/mod.rs of the original.
//!
//! ```
//! use trading_calendar::{Market, TradingCalendar};
//!
//! let market: Market = "nyse".parse()?;
//! assert_eq!(market, Market::NYSE);
//! assert_eq!(market.to_string(), "New York Stock Exchange");
//! let calendar = TradingCalendar::new(market)?;
//! assert_eq!(calendar.market().code(), "NYSE");
//! # Ok::<(), trading_calendar::CalendarError>(())
//! ```

use crate::CalendarError;
use std::fmt;
use std::str::FromStr;

/// A market; its number is its place here `[markets]`.
#[derive(Debug, Clone, Copy, PartialEq, Eq, Hash)]
pub enum Market {
    /// New York Stock Exchange
    NYSE,
    /// NASDAQ Stock Market
    NASDAQ,
    /// London Stock Exchange
    LSE,
    /// Tokyo Stock Exchange
    TSE,
    /// Toronto Stock Exchange
    TSX,
}

impl Market {
    /// Added: all five, in the order of their numbers.
    pub const ALL: [Market; 5] = [
        Market::NYSE,
        Market::NASDAQ,
        Market::LSE,
        Market::TSE,
        Market::TSX,
    ];

    /// Its name in full.
    pub fn name(&self) -> &'static str {
        match self {
            Market::NYSE => "New York Stock Exchange",
            Market::NASDAQ => "NASDAQ Stock Market",
            Market::LSE => "London Stock Exchange",
            Market::TSE => "Tokyo Stock Exchange",
            Market::TSX => "Toronto Stock Exchange",
        }
    }

    /// Its name in capitals.
    pub fn code(&self) -> &'static str {
        match self {
            Market::NYSE => "NYSE",
            Market::NASDAQ => "NASDAQ",
            Market::LSE => "LSE",
            Market::TSE => "TSE",
            Market::TSX => "TSX",
        }
    }

    /// Added: its number, 0 to 4 `[markets]`. `Market::try_from` goes the other way.
    pub const fn number(&self) -> u32 {
        *self as u32
    }
}

/// The name in full.
impl fmt::Display for Market {
    fn fmt(&self, f: &mut fmt::Formatter<'_>) -> fmt::Result {
        f.write_str(self.name())
    }
}

/// From its code, in capitals or not.
impl FromStr for Market {
    type Err = CalendarError;

    fn from_str(text: &str) -> crate::Result<Self> {
        let code = text.to_uppercase();
        let market = Market::ALL.into_iter().find(|market| market.code() == code);
        market.ok_or_else(|| {
            CalendarError::InvalidConfiguration(format!("no market has the code {text}"))
        })
    }
}

/// From its number; error 8 if no market has it.
impl TryFrom<u32> for Market {
    type Error = CalendarError;

    fn try_from(number: u32) -> crate::Result<Self> {
        let mut markets = Market::ALL.into_iter();
        let market = markets.find(|market| market.number() == number);
        market.ok_or(CalendarError::UnknownMarket)
    }
}
