//! Values of the crate `time`.
use crate::{ToDate, ToMoment, ToUtcMoment};
use movaliren::{Date, Moment, UtcMoment};
use time::OffsetDateTime;

impl ToMoment for OffsetDateTime {
    fn to_moment(&self) -> Moment {
        let (hours, minutes, seconds) = self.offset().as_hms();
        Moment::new(self.year(), self.month().into(), self.day())
            .at(self.hour(), self.minute(), self.second(), self.nanosecond())
            .offset(hours, minutes, seconds)
    }
}

impl ToUtcMoment for OffsetDateTime {
    fn to_utc_moment(&self) -> UtcMoment {
        UtcMoment::new(self.unix_timestamp(), self.nanosecond())
    }
}

impl ToDate for time::Date {
    fn to_date(&self) -> Date {
        let (year, month, day) = self.to_calendar_date();
        Date {
            year,
            month: month.into(),
            day,
        }
    }
}
