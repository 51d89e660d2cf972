//! Values of the crate `chrono`. Its numbers are small enough for each cast below.
use crate::{ToDate, ToMoment, ToUtcMoment};
use chrono::{DateTime, Datelike, NaiveDate, Offset, TimeZone, Timelike};
use movaliren::{Date, Moment, UtcMoment};

/// A leap second of `chrono` has a nanosecond of 1,000,000,000 or more. No format can represent it:
/// the error is `Nanosecond`.
impl<Tz: TimeZone> ToMoment for DateTime<Tz> {
    fn to_moment(&self) -> Moment {
        let local = self.naive_local();
        let (hour, minute, second) = (local.hour(), local.minute(), local.second());
        // Less than a day either way.
        let offset = self.offset().fix().local_minus_utc();
        Moment::new(local.year(), local.month() as u8, local.day() as u8)
            .at(hour as u8, minute as u8, second as u8, local.nanosecond())
            .offset(
                (offset / 3_600) as i8,
                (offset / 60 % 60) as i8,
                (offset % 60) as i8,
            )
    }
}

/// A leap second of `chrono` has a nanosecond of 1,000,000,000 or more. No format can represent it:
/// the error is `Nanosecond`.
impl<Tz: TimeZone> ToUtcMoment for DateTime<Tz> {
    fn to_utc_moment(&self) -> UtcMoment {
        UtcMoment::new(self.timestamp(), self.timestamp_subsec_nanos())
    }
}

impl ToDate for NaiveDate {
    fn to_date(&self) -> Date {
        Date {
            year: self.year(),
            month: self.month() as u8,
            day: self.day() as u8,
        }
    }
}
