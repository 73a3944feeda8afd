//! Sets of markets, and a day that is good for all of a set (added).
//!
//! ```
//! use trading_calendar::{Market, MarketSet, NaiveDate};
//!
//! let pair = MarketSet::from([Market::NYSE, Market::LSE]);
//! let thursday = NaiveDate::from_ymd_opt(2025, 12, 25).unwrap();
//! let monday = NaiveDate::from_ymd_opt(2025, 12, 29).unwrap();
//! // Christmas, Boxing Day in London, and a weekend
//! assert_eq!(pair.common_trading_day(thursday, monday)?, Some(monday));
//! # Ok::<(), trading_calendar::CalendarError>(())
//! ```

use crate::{ffi, Market, NaiveDate, Result};
use std::fmt;
use std::ops::BitOr;

/// A set of markets, a byte with a bit for each `[market-set]`. It can be empty, which the call refuses; it has no bit
/// that is no market's.
///
/// ```
/// use trading_calendar::{Market, MarketSet};
///
/// let set: MarketSet = [Market::TSX, Market::NYSE, Market::TSX].into_iter().collect();
/// assert_eq!(set, MarketSet::from(Market::NYSE) | Market::TSX.into());
/// assert!(set.contains(Market::TSX) && !set.contains(Market::TSE));
/// assert_eq!((set.len(), format!("{set:?}").as_str()), (2, "{NYSE, TSX}"));
/// assert!(MarketSet::default().is_empty());
/// ```
#[derive(Clone, Copy, Default, PartialEq, Eq, Hash)]
pub struct MarketSet {
    bits: u8,
}

impl MarketSet {
    /// A day from the start to the end, both included, on which every market of the set trades; none exactly if there is no such
    /// day, also if the start is after the end `[common-day]`. Which of several such days is left open: it need not be the first.
    ///
    /// # Errors
    ///
    /// `InvalidMarketSet` if the set is empty; else `DateOutOfRange`, with the start, as in
    /// [`count_trading_days`](crate::TradingCalendar::count_trading_days).
    ///
    /// ```
    /// use trading_calendar::{CalendarError, Market, MarketSet, NaiveDate, TradingCalendar};
    ///
    /// let set = MarketSet::from([Market::NYSE, Market::LSE, Market::TSE]);
    /// let start = NaiveDate::from_ymd_opt(2025, 1, 1).unwrap();
    /// let end = NaiveDate::from_ymd_opt(2025, 1, 31).unwrap();
    /// let day = set.common_trading_day(start, end)?.unwrap();
    /// for market in set.iter() {
    ///     assert!(TradingCalendar::new(market)?.is_trading_day(day)?);
    /// }
    ///
    /// let third = NaiveDate::from_ymd_opt(2025, 1, 3).unwrap();
    /// assert_eq!(set.common_trading_day(start, third)?, None); // Tokyo is closed
    ///
    /// let error = MarketSet::default().common_trading_day(start, end).unwrap_err();
    /// assert_eq!(error, CalendarError::InvalidMarketSet);
    /// # Ok::<(), CalendarError>(())
    /// ```
    pub fn common_trading_day(self, start: NaiveDate, end: NaiveDate) -> Result<Option<NaiveDate>> {
        ffi::common_trading_day(self.bits, start.into(), end.into()).answered()
    }

    /// The byte that the call takes.
    pub const fn bits(self) -> u8 {
        self.bits
    }

    /// Whether the market is in it.
    pub fn contains(self, market: Market) -> bool {
        self | market.into() == self
    }

    /// Whether no market is in it.
    pub const fn is_empty(self) -> bool {
        self.bits == 0
    }

    /// How many markets are in it.
    pub const fn len(self) -> usize {
        self.bits.count_ones() as usize
    }

    /// Its markets, in the order of their numbers.
    pub fn iter(self) -> impl Iterator<Item = Market> {
        let markets = Market::ALL.into_iter();
        markets.filter(move |&market| self.contains(market))
    }
}

/// The market alone: the bit is that of its number.
impl From<Market> for MarketSet {
    fn from(market: Market) -> Self {
        MarketSet {
            bits: 1 << market.number(),
        }
    }
}

/// The markets of both.
impl BitOr for MarketSet {
    type Output = MarketSet;

    fn bitor(self, other: MarketSet) -> MarketSet {
        MarketSet {
            bits: self.bits | other.bits,
        }
    }
}

impl Extend<Market> for MarketSet {
    fn extend<T: IntoIterator<Item = Market>>(&mut self, markets: T) {
        let markets = markets.into_iter().map(MarketSet::from);
        *self = markets.fold(*self, MarketSet::bitor);
    }
}

impl FromIterator<Market> for MarketSet {
    fn from_iter<T: IntoIterator<Item = Market>>(markets: T) -> Self {
        let mut set = MarketSet::default();
        set.extend(markets);
        set
    }
}

impl<const N: usize> From<[Market; N]> for MarketSet {
    fn from(markets: [Market; N]) -> Self {
        markets.into_iter().collect()
    }
}

/// As {NYSE, LSE}.
impl fmt::Debug for MarketSet {
    fn fmt(&self, f: &mut fmt::Formatter<'_>) -> fmt::Result {
        f.debug_set().entries(self.iter()).finish()
    }
}
