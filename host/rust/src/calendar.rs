//! The calls on a market and dates, as src/calendar.rs of the original.

use crate::convert::year_number;
use crate::sheet::{self, LONGEST_SHEET};
use crate::{ffi, Market, NaiveDate, NaiveTime, Result, TradingHours};

/// The days of the longest month.
const LONGEST_MONTH: usize = 31;

/// The calendar of a market. It holds no more than the market: it can be copied, and shared between threads.
#[derive(Debug, Clone, Copy, PartialEq, Eq, Hash)]
pub struct TradingCalendar {
    market: Market,
}

/// Added: a trading day beside a date.
#[derive(Debug, Clone, Copy, PartialEq, Eq, Hash)]
pub struct TradingDay {
    /// The trading day
    pub date: NaiveDate,
    /// How many days it is from the date given, 1 or more `[distance]`
    pub distance: u32,
    /// Whether one of both dates is outside 2020 to 2030, the years for which the rules are made `[outside]`
    pub outside: bool,
}

/// Added: an order sliced over the trading days of a date range `[slice-order]`.
#[derive(Debug, Clone, Copy, PartialEq, Eq, Hash)]
pub struct Slices {
    /// How many trading days there are, 1 or more, with a slice for each
    pub count: usize,
    /// The shares of each day, without the remainder
    pub per_day: u32,
    /// How many shares are left, fewer than there are days: so many of the first days carry one share more
    pub remainder: u32,
}

impl TradingCalendar {
    /// Always `Ok`: a `Result` as in the original.
    pub fn new(market: Market) -> Result<Self> {
        Ok(TradingCalendar { market })
    }

    /// Whether the date is no Saturday, no Sunday and no holiday `[trading-day]`; `DateOutOfRange` outside 2020 to 2030.
    ///
    /// ```
    /// use trading_calendar::{Market, NaiveDate, TradingCalendar};
    ///
    /// let nyse = TradingCalendar::new(Market::NYSE)?;
    /// let monday = NaiveDate::from_ymd_opt(2025, 3, 10).unwrap();
    /// assert!(nyse.is_trading_day(monday)?);
    /// let christmas = NaiveDate::from_ymd_opt(2025, 12, 25).unwrap();
    /// assert!(!nyse.is_trading_day(christmas)?);
    /// let saturday = NaiveDate::from_ymd_opt(2025, 3, 8).unwrap();
    /// assert!(!nyse.is_trading_day(saturday)?);
    /// # Ok::<(), trading_calendar::CalendarError>(())
    /// ```
    pub fn is_trading_day(&self, date: NaiveDate) -> Result<bool> {
        self.ask(ffi::tc_is_trading_day, date).answered()
    }

    /// Whether the date is a holiday, be it on a weekend or not `[is-holiday]`; `DateOutOfRange` outside 2020 to 2030.
    ///
    /// ```
    /// use trading_calendar::{Market, NaiveDate, TradingCalendar};
    ///
    /// let nyse = TradingCalendar::new(Market::NYSE)?;
    /// let christmas = NaiveDate::from_ymd_opt(2025, 12, 25).unwrap();
    /// assert!(nyse.is_holiday(christmas)?);
    /// let monday = NaiveDate::from_ymd_opt(2025, 3, 10).unwrap();
    /// assert!(!nyse.is_holiday(monday)?);
    /// # Ok::<(), trading_calendar::CalendarError>(())
    /// ```
    pub fn is_holiday(&self, date: NaiveDate) -> Result<bool> {
        self.ask(ffi::tc_is_holiday, date).answered()
    }

    /// Added: whether the date is a trading day and one of its sessions is open at the time `[is-open]`: pre-market and after-hours
    /// too. `DateOutOfRange` outside 2020 to 2030.
    ///
    /// ```
    /// use trading_calendar::{Market, NaiveDate, NaiveTime, TradingCalendar};
    ///
    /// let nyse = TradingCalendar::new(Market::NYSE)?;
    /// let ten = NaiveTime::from_hms_opt(10, 0, 0).unwrap();
    /// let christmas = NaiveDate::from_ymd_opt(2025, 12, 25).unwrap();
    /// assert!(!nyse.is_open(christmas, ten)?);
    /// assert!(nyse.trading_hours(christmas).is_open_at(ten)); // which does not consult holidays
    /// # Ok::<(), trading_calendar::CalendarError>(())
    /// ```
    pub fn is_open(&self, date: NaiveDate, time: NaiveTime) -> Result<bool> {
        let ffi::Date { year, month, day } = date.into();
        ffi::tc_is_open(self.market.number(), year, month, day, time.into()).answered()
    }

    /// The hours of a date of any year, be it a trading day or not `[trading-hours]`.
    ///
    /// ```
    /// use trading_calendar::{Market, NaiveDate, NaiveTime, TradingCalendar};
    ///
    /// let nyse = TradingCalendar::new(Market::NYSE)?;
    /// let christmas_eve = NaiveDate::from_ymd_opt(2025, 12, 24).unwrap();
    /// let hours = nyse.trading_hours(christmas_eve);
    /// assert!(hours.is_early_close());
    /// assert_eq!(hours.market_close(), NaiveTime::from_hms_opt(13, 0, 0).unwrap());
    /// # Ok::<(), trading_calendar::CalendarError>(())
    /// ```
    pub fn trading_hours(&self, date: NaiveDate) -> TradingHours {
        self.ask(ffi::tc_trading_hours, date).hours.answered()
    }

    /// The first trading day after a date of any year `[next]`; `NoTradingDayFound` if none is left up to 9999-12-31.
    ///
    /// ```
    /// use trading_calendar::{Market, NaiveDate, TradingCalendar};
    ///
    /// let nyse = TradingCalendar::new(Market::NYSE)?;
    /// let christmas_eve = NaiveDate::from_ymd_opt(2026, 12, 24).unwrap();
    /// assert_eq!(nyse.next_trading_day(christmas_eve)?.to_string(), "2026-12-28");
    /// # Ok::<(), trading_calendar::CalendarError>(())
    /// ```
    pub fn next_trading_day(&self, date: NaiveDate) -> Result<NaiveDate> {
        Ok(self.next_trading_day_with_distance(date)?.date)
    }

    /// The last trading day before a date of any year `[previous]`; `NoTradingDayFound` if none is left down to 0001-01-01.
    pub fn previous_trading_day(&self, date: NaiveDate) -> Result<NaiveDate> {
        Ok(self.previous_trading_day_with_distance(date)?.date)
    }

    /// Added: the same as `next_trading_day`, with the distance and whether a date is outside 2020 to 2030.
    ///
    /// ```
    /// use trading_calendar::{Market, NaiveDate, TradingCalendar};
    ///
    /// let tse = TradingCalendar::new(Market::TSE)?;
    /// let date = NaiveDate::from_ymd_opt(2022, 4, 28).unwrap();
    /// let next = tse.next_trading_day_with_distance(date)?;
    /// assert_eq!(next.date.to_string(), "2022-05-09");
    /// assert_eq!((next.distance, next.outside), (11, false));
    /// # Ok::<(), trading_calendar::CalendarError>(())
    /// ```
    pub fn next_trading_day_with_distance(&self, date: NaiveDate) -> Result<TradingDay> {
        self.ask(ffi::tc_next_trading_day, date).answered()
    }

    /// Added: the same as `previous_trading_day`, with the distance and whether a date is outside 2020 to 2030.
    pub fn previous_trading_day_with_distance(&self, date: NaiveDate) -> Result<TradingDay> {
        self.ask(ffi::tc_previous_trading_day, date).answered()
    }

    /// The market given.
    pub fn market(&self) -> Market {
        self.market
    }

    /// The trading days of a month, ascending `[month-list]`.
    ///
    /// # Errors
    ///
    /// `DateOutOfRange` outside 2020 to 2030, with the 1st of the month, or 1970-01-01 where the years 1 to 9999 have none, as for
    /// a negative year `[month-error-date]`; `InvalidDateCalculation` if the month is not 1 to 12.
    ///
    /// ```
    /// use trading_calendar::{Market, TradingCalendar};
    ///
    /// let nyse = TradingCalendar::new(Market::NYSE)?;
    /// let days = nyse.trading_days_in_month(2025, 1)?;
    /// assert_eq!(days.len(), 21);
    /// assert_eq!(days[0].to_string(), "2025-01-02");
    /// # Ok::<(), trading_calendar::CalendarError>(())
    /// ```
    pub fn trading_days_in_month(&self, year: i32, month: u32) -> Result<Vec<NaiveDate>> {
        let (market, year) = (self.market.number(), year_number(year));
        let mut days = [0; LONGEST_MONTH];
        let count = ffi::trading_days_in_month(market, year, month, &mut days).answered()?;
        let date = |&day: &u8| {
            let day = day.into();
            NaiveDate::answered(ffi::Date { year, month, day })
        };
        Ok(days.iter().take(count).map(date).collect())
    }

    /// How many trading days there are from the start to the end, both included; 0 if the start is after the end `[count]`.
    /// `DateOutOfRange`, with the start, if the start is before 2020 or the end after 2030.
    ///
    /// ```
    /// use trading_calendar::{Market, NaiveDate, TradingCalendar};
    ///
    /// let nyse = TradingCalendar::new(Market::NYSE)?;
    /// let start = NaiveDate::from_ymd_opt(2025, 1, 1).unwrap();
    /// let end = NaiveDate::from_ymd_opt(2025, 1, 31).unwrap();
    /// assert_eq!(nyse.count_trading_days(start, end)?, 21);
    /// # Ok::<(), trading_calendar::CalendarError>(())
    /// ```
    pub fn count_trading_days(&self, start: NaiveDate, end: NaiveDate) -> Result<usize> {
        let call = ffi::tc_count_trading_days;
        let (market, end) = (self.market.number(), ffi::Date::from(end));
        let ffi::Date { year, month, day } = start.into();
        call(market, year, month, day, end.year, end.month, end.day).answered()
    }

    /// Added: slices an order of so many shares over the trading days from the start to the end, both included: the same shares each
    /// day, and one more on the first days until the remainder is spent `[slice-order]`. The slices are written from the start of the
    /// buffer, one for each day in order, and add up to the order. Entries past them stay as they were, and with an error all do.
    ///
    /// # Errors
    ///
    /// `DateOutOfRange` as in `count_trading_days`; `NoTradingDayInRange` if that counts 0; `BufferTooSmall`, with the count, if the
    /// buffer has fewer entries: the first that applies.
    ///
    /// ```
    /// use trading_calendar::{Market, NaiveDate, TradingCalendar};
    ///
    /// let nyse = TradingCalendar::new(Market::NYSE)?;
    /// let start = NaiveDate::from_ymd_opt(2025, 12, 22).unwrap();
    /// let end = NaiveDate::from_ymd_opt(2025, 12, 28).unwrap();
    /// let mut shares = [0; 5];
    /// let slices = nyse.slice_order(1002, start, end, &mut shares)?;
    /// assert_eq!((slices.count, slices.per_day, slices.remainder), (4, 250, 2));
    /// assert_eq!(shares, [251, 251, 250, 250, 0]); // Christmas is between the third and the fourth
    /// # Ok::<(), trading_calendar::CalendarError>(())
    /// ```
    pub fn slice_order(
        &self,
        quantity: u32,
        start: NaiveDate,
        end: NaiveDate,
        out: &mut [u32],
    ) -> Result<Slices> {
        let market = self.market.number();
        ffi::slice_order(market, quantity, start.into(), end.into(), out).answered()
    }

    /// Added: the slices of `slice_order` as a list of just their length, with the same errors but `BufferTooSmall`. The days are counted
    /// once more, before, for the room; `slice_order` counts them once.
    ///
    /// ```
    /// use trading_calendar::{CalendarError, Market, NaiveDate, TradingCalendar};
    ///
    /// let nyse = TradingCalendar::new(Market::NYSE)?;
    /// let start = NaiveDate::from_ymd_opt(2025, 12, 22).unwrap();
    /// let end = NaiveDate::from_ymd_opt(2025, 12, 28).unwrap();
    /// assert_eq!(nyse.slice_order_to_vec(1002, start, end)?, [251, 251, 250, 250]);
    ///
    /// let saturday = NaiveDate::from_ymd_opt(2025, 12, 27).unwrap();
    /// let error = nyse.slice_order_to_vec(1002, saturday, end).unwrap_err();
    /// assert_eq!(error, CalendarError::NoTradingDayInRange);
    /// # Ok::<(), CalendarError>(())
    /// ```
    pub fn slice_order_to_vec(
        &self,
        quantity: u32,
        start: NaiveDate,
        end: NaiveDate,
    ) -> Result<Vec<u32>> {
        let mut slices = vec![0; self.count_trading_days(start, end)?];
        self.slice_order(quantity, start, end, &mut slices)?;
        Ok(slices)
    }

    /// Added: the sheet of a month as text `[sheet-output]`, with the errors of `trading_days_in_month`. [`sheet::month_sheet`]
    /// writes it into a buffer.
    ///
    /// ```
    /// use trading_calendar::{Market, TradingCalendar};
    ///
    /// let tsx = TradingCalendar::new(Market::TSX)?;
    /// let sheet = tsx.month_sheet(2022, 12)?;
    /// assert_eq!(sheet.lines().nth(3), Some("count=21"));
    /// # Ok::<(), trading_calendar::CalendarError>(())
    /// ```
    pub fn month_sheet(&self, year: i32, month: u32) -> Result<String> {
        // A line takes up to 9 digits [sheet-input], and what lies past these bounds has the same error as they have.
        let (year, month) = (year.clamp(0, 10_000), month.min(13));
        let market = self.market.number();
        let text = format!("market={market}\nyear={year}\nmonth={month}\n");
        let mut bytes = [0; LONGEST_SHEET];
        let count = sheet::month_sheet(text.as_bytes(), &mut bytes)?;
        Ok(bytes.into_iter().take(count).map(char::from).collect())
    }

    fn ask<T>(&self, call: ffi::OnDate<T>, date: NaiveDate) -> T {
        let ffi::Date { year, month, day } = date.into();
        call(self.market.number(), year, month, day)
    }
}

/// That of NYSE.
impl Default for TradingCalendar {
    fn default() -> Self {
        TradingCalendar {
            market: Market::NYSE,
        }
    }
}
