//! The fields of the C structs in order, as rows have them.

use trading_calendar::ffi::*;

pub trait Fields {
    fn fields(self) -> Vec<u32>;
}

impl Fields for Date {
    fn fields(self) -> Vec<u32> {
        vec![self.year, self.month, self.day]
    }
}

impl Fields for OptionalDate {
    fn fields(self) -> Vec<u32> {
        [vec![self.found], self.date.fields()].concat()
    }
}

impl Fields for BoolResult {
    fn fields(self) -> Vec<u32> {
        [vec![self.error, self.value], self.date.fields()].concat()
    }
}

impl Fields for CountResult {
    fn fields(self) -> Vec<u32> {
        [vec![self.error, self.count], self.date.fields()].concat()
    }
}

/// The answer, and every byte of the buffer after the call.
impl Fields for (CountResult, Vec<u8>) {
    fn fields(self) -> Vec<u32> {
        let bytes = self.1.into_iter().map(u32::from);
        self.0.fields().into_iter().chain(bytes).collect()
    }
}

impl Fields for TradingDayResult {
    fn fields(self) -> Vec<u32> {
        let rest = vec![self.distance, self.outside];
        [vec![self.error], self.date.fields(), rest].concat()
    }
}

impl Fields for Session {
    fn fields(self) -> Vec<u32> {
        vec![self.start, self.end]
    }
}

impl Fields for SessionResult {
    fn fields(self) -> Vec<u32> {
        [vec![self.error], self.session.fields()].concat()
    }
}

impl Fields for TimeResult {
    fn fields(self) -> Vec<u32> {
        vec![self.error, self.seconds]
    }
}

impl Fields for HoursResult {
    fn fields(self) -> Vec<u32> {
        let hours = self.hours;
        [
            vec![self.error],
            hours.date.fields(),
            vec![hours.has_pre_market],
            hours.pre_market.fields(),
            hours.regular.fields(),
            vec![hours.has_after_hours],
            hours.after_hours.fields(),
            vec![hours.has_early_close, hours.early_close],
        ]
        .concat()
    }
}
