//! The calls of the library, as host/rust declares them, and that of all_years, for any of the years 1 to 9999.

pub use binding::ffi::*;

/// Of all_years: every field is false if there is no such market or no such date.
#[repr(C)]
#[derive(Clone, Copy, Debug, Default, PartialEq, Eq)]
pub struct DayAnswer {
    pub known: bool,
    pub holiday: bool,
    pub trades: bool,
}

// Safe, since it takes any numbers at all.
unsafe extern "C" {
    pub safe fn all_years_day(market: u32, year: u32, month: u32, day: u32) -> DayAnswer;
}
