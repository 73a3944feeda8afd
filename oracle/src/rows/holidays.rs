//! Answers of the original as rows for crates/replay/data/holidays.txt, to standard output.

use crate::library::{BoolResult, Date};
use crate::original::{calendars, days_of, implementations, of_result};
use crate::rows::inputs::{
    months, other_years, Day, OwnRule, EDGES, EXAMPLES, HEAD, NAMES, OWN_RULES,
};
use crate::rows::writer::RowWriter;
use crate::ANSWERED_YEARS;
use chrono::NaiveDate;
use std::io;
use trading_calendar::markets::MarketImpl;
use trading_calendar::{Result, TradingCalendar};

pub fn run() -> io::Result<()> {
    let mut rows = Rows {
        out: RowWriter::to_standard_output(HEAD)?,
        calendars: calendars(),
        implementations: implementations(),
    };
    (0..5).try_for_each(|market| rows.holidays(market))?;
    // NASDAQ has the rules of NYSE and is left out.
    [0, 2, 3, 4]
        .iter()
        .try_for_each(|&market| rows.holidays_any_year(market))?;
    (0..5).try_for_each(|market| rows.trading_days(market))?;
    rows.days("is_holiday", TradingCalendar::is_holiday)?;
    rows.days("is_trading_day", TradingCalendar::is_trading_day)?;
    rows.wrong_on_purpose()?;
    rows.out.flush()
}

type Ask = fn(&TradingCalendar, NaiveDate) -> Result<bool>;

struct Rows {
    out: RowWriter,
    calendars: [TradingCalendar; 5],
    implementations: [Box<dyn MarketImpl>; 5],
}

impl Rows {
    fn holidays(&mut self, market: u32) -> io::Result<()> {
        let name = NAMES[market as usize];
        self.out
            .heading(&format!("{name}: the holidays of the years 2020 to 2030"))?;
        for year in ANSWERED_YEARS {
            let days = self.holidays_of(market, year);
            self.out.row("holidays", &[market, year], &days)?;
        }
        Ok(())
    }

    fn holidays_any_year(&mut self, market: u32) -> io::Result<()> {
        let name = NAMES[market as usize];
        self.out
            .heading(&format!("{name}: the holidays of other years"))?;
        for year in other_years() {
            let days = self.holidays_of_any_year(market, year);
            self.out.row("holidays_any_year", &[market, year], &days)?;
        }
        Ok(())
    }

    fn trading_days(&mut self, market: u32) -> io::Result<()> {
        let name = NAMES[market as usize];
        self.out
            .heading(&format!("{name}: the trading days of some months"))?;
        let all = ANSWERED_YEARS.flat_map(|year| months(market).iter().map(move |&m| (year, m)));
        for (year, month) in all {
            let days = self.trading_days_of(market, year, month);
            self.out
                .row("trading_days", &[market, year, month], &days)?;
        }
        Ok(())
    }

    /// Single dates, for is_holiday or is_trading_day.
    fn days(&mut self, name: &str, ask: Ask) -> io::Result<()> {
        self.out
            .heading(&format!("{name}: examples of docs/SCOPE.md"))?;
        EXAMPLES
            .iter()
            .try_for_each(|&day| self.day(name, day, ask))?;
        self.out.heading(&format!(
            "{name}: around the years 2020 and 2030, far outside, and leap days"
        ))?;
        let edges =
            (0..5).flat_map(|market| EDGES.map(|[year, month, day]| [market, year, month, day]));
        edges
            .into_iter()
            .try_for_each(|day| self.day(name, day, ask))?;
        OWN_RULES
            .iter()
            .try_for_each(|rule| self.own_rule(name, rule))
    }

    fn own_rule(&mut self, name: &str, (error, about, days): &OwnRule) -> io::Result<()> {
        self.out.own_rule(name, *error, about)?;
        for day in *days {
            self.out.row(name, day, &[*error, 0, 0, 0, 0])?;
        }
        Ok(())
    }

    /// What the original answers for a date.
    fn day(&mut self, name: &str, input: Day, ask: Ask) -> io::Result<()> {
        let [market, year, month, day] = input;
        let date = NaiveDate::from_ymd_opt(year as i32, month, day).expect("a date");
        let BoolResult { error, value, date } =
            of_result(ask(&self.calendars[market as usize], date));
        self.out.row(
            name,
            &input,
            &[error, value, date.year, date.month, date.day],
        )
    }

    /// One row of each kind.
    fn wrong_on_purpose(&mut self) -> io::Result<()> {
        self.out
            .heading("wrong on purpose: NYSE also has 103, as 1 January 2022 is a Saturday")?;
        let mut days = self.holidays_of(0, 2022);
        days.retain(|&day| day != 103);
        self.out.row("holidays", &[0, 2022], &days)?;

        self.out.heading(
            "wrong on purpose: TSX has no 219, as its holiday in February begins with 2008",
        )?;
        let mut days = self.holidays_of_any_year(4, 2007);
        days.insert(1, 219);
        self.out.row("holidays_any_year", &[4, 2007], &days)?;

        self.out
            .heading("wrong on purpose: TSX also trades on 27 December 2022")?;
        let mut days = self.trading_days_of(4, 2022, 12);
        days.retain(|&day| day != 27);
        self.out.row("trading_days", &[4, 2022, 12], &days)?;

        self.out
            .heading("wrong on purpose: 4 January 2021 is a holiday of TSE")?;
        self.out
            .row("is_holiday", &[3, 2021, 1, 4], &[0, 0, 0, 0, 0])?;

        self.out
            .heading("wrong on purpose: 28 December 2021 is no trading day of LSE")?;
        self.out
            .row("is_trading_day", &[2, 2021, 12, 28], &[0, 1, 0, 0, 0])
    }

    fn holidays_of(&self, market: u32, year: u32) -> Vec<u32> {
        let calendar = &self.calendars[market as usize];
        let is_holiday = |date| calendar.is_holiday(date).expect("a year with answers");
        month_days(year, is_holiday)
    }

    fn holidays_of_any_year(&self, market: u32, year: u32) -> Vec<u32> {
        let implementation = &self.implementations[market as usize];
        month_days(year, |date| implementation.is_holiday(date))
    }

    fn trading_days_of(&self, market: u32, year: u32, month: u32) -> Vec<u32> {
        let calendar = &self.calendars[market as usize];
        let is_trading_day = |date| calendar.is_trading_day(date).expect("a year with answers");
        let of_month = days_of(year).filter(|(date, _)| date.month == month);
        let trading = of_month.filter(|&(_, naive)| is_trading_day(naive));
        trading.map(|(date, _)| date.day).collect()
    }
}

/// The days of the year for which it holds, each as month * 100 + day.
fn month_days(year: u32, holds: impl Fn(NaiveDate) -> bool) -> Vec<u32> {
    let days = days_of(year).filter(|&(_, naive)| holds(naive));
    days.map(|(Date { month, day, .. }, _)| month * 100 + day)
        .collect()
}
