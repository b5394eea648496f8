//! The part of the crate `chrono` that the original uses: a time in UTC, made from the seconds and nanoseconds since
//! 1970-01-01T00:00:00Z and asked for them again. It converts nothing, so none of its answers is compared.

use std::marker::PhantomData;

/// The first second of the year -262143 and the last of 262142, which is as far as the real `chrono` goes.
const SECONDS: std::ops::RangeInclusive<i64> = -8_334_601_228_800..=8_210_266_876_799;

const NANOSECONDS_IN_A_SECOND: u32 = 1_000_000_000;

/// The time zone UTC, the only one here.
#[derive(Debug, Clone, Copy, PartialEq, Eq)]
pub struct Utc;

/// A time. The default is the first of 1970.
#[derive(Debug, Clone, Copy, PartialEq, Eq)]
pub struct DateTime<Tz> {
    seconds: i64,
    nanoseconds: u32,
    zone: PhantomData<Tz>,
}

impl DateTime<Utc> {
    /// The time, or `None` outside the real `chrono`'s range of years, -262143 to 262142. A FILETIME never leaves it:
    /// the largest one is 910692730085 seconds and 477580700 nanoseconds. The real one also takes a leap second, with
    /// nanoseconds of a second or more, which the original never asks for; here that is `None`.
    pub fn from_timestamp(seconds: i64, nanoseconds: u32) -> Option<Self> {
        (SECONDS.contains(&seconds) && nanoseconds < NANOSECONDS_IN_A_SECOND).then_some(Self {
            seconds,
            nanoseconds,
            zone: PhantomData,
        })
    }

    /// The whole seconds since the first of 1970.
    pub fn timestamp(&self) -> i64 {
        self.seconds
    }

    /// The nanoseconds past the whole second.
    pub fn timestamp_subsec_nanos(&self) -> u32 {
        self.nanoseconds
    }
}

impl Default for DateTime<Utc> {
    fn default() -> Self {
        Self {
            seconds: 0,
            nanoseconds: 0,
            zone: PhantomData,
        }
    }
}
