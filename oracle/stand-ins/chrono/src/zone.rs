//! Zones and the clock: just the types that the original names. Nothing here is ever asked.

use crate::{NaiveDate, NaiveDateTime, NaiveTime};
use std::marker::PhantomData;

const NEVER_ASKED: &str = "the stand-in for chrono has no zones and no clock";

pub trait TimeZone: Sized {
    #[allow(clippy::wrong_self_convention)] // chrono's name
    fn from_local_datetime(&self, _local: &NaiveDateTime) -> LocalResult<DateTime<Self>> {
        unimplemented!("{NEVER_ASKED}")
    }
}

#[derive(Clone, Copy, Debug)]
pub struct Utc;

#[derive(Clone, Copy, Debug)]
pub struct DateTime<Zone>(PhantomData<Zone>);

#[derive(Clone, Copy, Debug)]
pub struct LocalResult<T>(PhantomData<T>);

impl TimeZone for Utc {}

impl Utc {
    pub fn now() -> DateTime<Utc> {
        unimplemented!("{NEVER_ASKED}")
    }
}

impl<Zone> DateTime<Zone> {
    pub fn with_timezone<Other: TimeZone>(&self, _zone: &Other) -> DateTime<Other> {
        unimplemented!("{NEVER_ASKED}")
    }

    pub fn date_naive(&self) -> NaiveDate {
        unimplemented!("{NEVER_ASKED}")
    }

    pub fn time(&self) -> NaiveTime {
        unimplemented!("{NEVER_ASKED}")
    }
}

impl<T> LocalResult<T> {
    pub fn earliest(self) -> Option<T> {
        unimplemented!("{NEVER_ASKED}")
    }
}
