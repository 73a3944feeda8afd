//! The calls of the library as include/trading_calendar.h has them, on numbers. The header says what each answers.

#[repr(C)]
#[derive(Clone, Copy, Debug, Default, PartialEq, Eq)]
pub struct Date {
    pub year: u32,
    pub month: u32,
    pub day: u32,
}

#[repr(C)]
#[derive(Clone, Copy, Debug, Default, PartialEq, Eq)]
pub struct OptionalDate {
    pub found: u32,
    pub date: Date,
}

#[repr(C)]
#[derive(Clone, Copy, Debug, Default, PartialEq, Eq)]
pub struct BoolResult {
    pub error: u32,
    pub value: u32,
    pub date: Date,
}

#[repr(C)]
#[derive(Clone, Copy, Debug, Default, PartialEq, Eq)]
pub struct TradingDayResult {
    pub error: u32,
    pub date: Date,
    pub distance: u32,
    pub outside: u32,
}

#[repr(C)]
#[derive(Clone, Copy, Debug, Default, PartialEq, Eq)]
pub struct CountResult {
    pub error: u32,
    pub count: u32,
    pub date: Date,
}

#[repr(C)]
#[derive(Clone, Copy, Debug, Default, PartialEq, Eq)]
pub struct SliceResult {
    pub error: u32,
    pub count: u32,
    pub per_day: u32,
    pub remainder: u32,
    pub date: Date,
}

#[repr(C)]
#[derive(Clone, Copy, Debug, Default, PartialEq, Eq)]
pub struct OptionalDateResult {
    pub error: u32,
    pub found: u32,
    pub date: Date,
}

#[repr(C)]
#[derive(Clone, Copy, Debug, Default, PartialEq, Eq)]
pub struct Session {
    pub start: u32,
    pub end: u32,
}

/// A has_ field is 0 if the part is absent [host-answers].
#[repr(C)]
#[derive(Clone, Copy, Debug, Default, PartialEq, Eq)]
pub struct Hours {
    pub date: Date,
    pub has_pre_market: u32,
    pub pre_market: Session,
    pub regular: Session,
    pub has_after_hours: u32,
    pub after_hours: Session,
    pub has_early_close: u32,
    pub early_close: u32,
}

#[repr(C)]
#[derive(Clone, Copy, Debug, Default, PartialEq, Eq)]
pub struct TimeResult {
    pub error: u32,
    pub seconds: u32,
}

#[repr(C)]
#[derive(Clone, Copy, Debug, Default, PartialEq, Eq)]
pub struct SessionResult {
    pub error: u32,
    pub session: Session,
}

#[repr(C)]
#[derive(Clone, Copy, Debug, Default, PartialEq, Eq)]
pub struct HoursResult {
    pub error: u32,
    pub hours: Hours,
}

/// A call on a market and a date.
pub type OnDate<T> = extern "C" fn(u32, u32, u32, u32) -> T;

/// A lent list is a pointer and a count of elements. A slice's pointer is not null, also if it is empty, as [host-calls] asks.
#[inline]
pub fn trading_days_in_month(market: u32, year: u32, month: u32, out: &mut [u8]) -> CountResult {
    unsafe { tc_trading_days_in_month(market, year, month, out.as_mut_ptr(), out.len()) }
}

/// Takes the start and the end as dates.
#[inline]
pub fn common_trading_day(markets: u8, start: Date, end: Date) -> OptionalDateResult {
    let Date { year, month, day } = start;
    tc_common_trading_day(markets, year, month, day, end.year, end.month, end.day)
}

/// Takes the start and the end as dates too; the list is lent as above.
#[inline]
pub fn slice_order(
    market: u32,
    quantity: u32,
    start: Date,
    end: Date,
    out: &mut [u32],
) -> SliceResult {
    unsafe {
        tc_slice_order(
            market,
            quantity,
            start.year,
            start.month,
            start.day,
            end.year,
            end.month,
            end.day,
            out.as_mut_ptr(),
            out.len(),
        )
    }
}

/// Two slices of which one is changed do not overlap, as [host-calls] asks.
#[inline]
pub fn month_sheet(text: &[u8], out: &mut [u8]) -> CountResult {
    unsafe { tc_month_sheet(text.as_ptr(), text.len(), out.as_mut_ptr(), out.len()) }
}

// Those without a pointer are safe, since every call takes any numbers at all.
unsafe extern "C" {
    pub safe fn tc_nth_weekday_of_month(
        year: u32,
        month: u32,
        weekday: u32,
        nth: i32,
    ) -> OptionalDate;
    pub safe fn tc_last_weekday_of_month(year: u32, month: u32, weekday: u32) -> OptionalDate;
    pub safe fn tc_calculate_easter(year: u32) -> OptionalDate;
    pub safe fn tc_calculate_good_friday(year: u32) -> OptionalDate;
    pub safe fn tc_calculate_easter_monday(year: u32) -> OptionalDate;
    pub safe fn tc_is_trading_day(market: u32, year: u32, month: u32, day: u32) -> BoolResult;
    pub safe fn tc_is_holiday(market: u32, year: u32, month: u32, day: u32) -> BoolResult;
    pub safe fn tc_next_trading_day(
        market: u32,
        year: u32,
        month: u32,
        day: u32,
    ) -> TradingDayResult;
    pub safe fn tc_previous_trading_day(
        market: u32,
        year: u32,
        month: u32,
        day: u32,
    ) -> TradingDayResult;
    pub safe fn tc_count_trading_days(
        market: u32,
        start_year: u32,
        start_month: u32,
        start_day: u32,
        end_year: u32,
        end_month: u32,
        end_day: u32,
    ) -> CountResult;
    pub safe fn tc_common_trading_day(
        markets: u8,
        start_year: u32,
        start_month: u32,
        start_day: u32,
        end_year: u32,
        end_month: u32,
        end_day: u32,
    ) -> OptionalDateResult;
    fn tc_trading_days_in_month(
        market: u32,
        year: u32,
        month: u32,
        out: *mut u8,
        out_length: usize,
    ) -> CountResult;
    fn tc_slice_order(
        market: u32,
        quantity: u32,
        start_year: u32,
        start_month: u32,
        start_day: u32,
        end_year: u32,
        end_month: u32,
        end_day: u32,
        out: *mut u32,
        out_length: usize,
    ) -> SliceResult;
    fn tc_month_sheet(
        text: *const u8,
        text_length: usize,
        out: *mut u8,
        out_length: usize,
    ) -> CountResult;

    pub safe fn tc_trading_hours(market: u32, year: u32, month: u32, day: u32) -> HoursResult;
    pub safe fn tc_is_open(market: u32, year: u32, month: u32, day: u32, time: u32) -> BoolResult;
    pub safe fn tc_session_new(start: u32, end: u32) -> SessionResult;
    pub safe fn tc_session_contains(session: Session, time: u32) -> BoolResult;
    pub safe fn tc_trading_hours_new(
        year: u32,
        month: u32,
        day: u32,
        regular: Session,
        has_pre_market: u32,
        pre_market: Session,
        has_after_hours: u32,
        after_hours: Session,
    ) -> HoursResult;
    pub safe fn tc_with_early_close(hours: Hours, time: u32) -> HoursResult;
    pub safe fn tc_is_early_close(hours: Hours) -> BoolResult;
    pub safe fn tc_market_close(hours: Hours) -> TimeResult;
    pub safe fn tc_is_open_at(hours: Hours, time: u32) -> BoolResult;
}
