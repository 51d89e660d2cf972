//! The values that are formatted.
use crate::{Error, Format, Stamp};
use core::cmp::Ordering;

/// A local date and time, and its offset from UTC.
///
/// A part may hold any number. Its range is tested when the moment is formatted.
///
/// The default is the start of 1970 in UTC.
#[repr(C)]
#[derive(Clone, Copy, Debug, PartialEq, Eq, Hash)]
#[must_use]
pub struct Moment {
    year: i32,
    month: u8,
    day: u8,
    hour: u8,
    minute: u8,
    second: u8,
    nanosecond: u32,
    offset_hours: i8,
    offset_minutes: i8,
    offset_seconds: i8,
}

impl Moment {
    /// Returns midnight of a date in UTC: the year -999,999 to 999,999, the month from 1, the day
    /// from 1.
    pub const fn new(year: i32, month: u8, day: u8) -> Self {
        Moment {
            year,
            nanosecond: 0,
            month,
            day,
            hour: 0,
            minute: 0,
            second: 0,
            offset_hours: 0,
            offset_minutes: 0,
            offset_seconds: 0,
        }
    }

    /// Sets the local time.
    pub const fn at(self, hour: u8, minute: u8, second: u8, nanosecond: u32) -> Self {
        Moment {
            hour,
            minute,
            second,
            nanosecond,
            ..self
        }
    }

    /// Sets the offset, of at most 25:59:59 either way. The local time stays.
    ///
    /// Its parts have one sign: half past five behind UTC is -5 and -30. Minutes of the opposite sign are
    /// [`Error::OffsetMinutes`] when the moment is formatted, and seconds [`Error::OffsetSeconds`].
    pub const fn offset(self, hours: i8, minutes: i8, seconds: i8) -> Self {
        Moment {
            offset_hours: hours,
            offset_minutes: minutes,
            offset_seconds: seconds,
            ..self
        }
    }

    /// Returns the year.
    #[must_use]
    pub const fn year(&self) -> i32 {
        self.year
    }

    /// Returns the month, from 1.
    #[must_use]
    pub const fn month(&self) -> u8 {
        self.month
    }

    /// Returns the day of the month, from 1.
    #[must_use]
    pub const fn day(&self) -> u8 {
        self.day
    }

    /// Returns the hour.
    #[must_use]
    pub const fn hour(&self) -> u8 {
        self.hour
    }

    /// Returns the minute.
    #[must_use]
    pub const fn minute(&self) -> u8 {
        self.minute
    }

    /// Returns the second.
    #[must_use]
    pub const fn second(&self) -> u8 {
        self.second
    }

    /// Returns the nanosecond of the second.
    #[must_use]
    pub const fn nanosecond(&self) -> u32 {
        self.nanosecond
    }

    /// Returns the hours, minutes and seconds of the offset, as they were set.
    #[must_use]
    pub const fn offset_hms(&self) -> (i8, i8, i8) {
        (self.offset_hours, self.offset_minutes, self.offset_seconds)
    }
}

impl Default for Moment {
    fn default() -> Self {
        Moment::new(1970, 1, 1)
    }
}

/// The order of the parts: the year first, then the month, the day, the hour, the minute, the second,
/// the nanosecond, and last the offset.
///
/// This is the order in time of moments of one offset. [`UtcMoment`] is in the order of time always.
///
/// ```
/// use movaliren::Moment;
///
/// let noon = Moment::new(2026, 11, 22).at(12, 0, 0, 0);
/// assert!(noon < Moment::new(2026, 11, 23));
/// assert!(noon < noon.at(12, 0, 0, 1));
/// ```
impl Ord for Moment {
    fn cmp(&self, other: &Self) -> Ordering {
        let date = |moment: &Moment| (moment.year, moment.month, moment.day);
        let time = |moment: &Moment| (moment.hour, moment.minute, moment.second, moment.nanosecond);
        date(self)
            .cmp(&date(other))
            .then_with(|| time(self).cmp(&time(other)))
            .then_with(|| self.offset_hms().cmp(&other.offset_hms()))
    }
}

impl PartialOrd for Moment {
    fn partial_cmp(&self, other: &Self) -> Option<Ordering> {
        Some(self.cmp(other))
    }
}

/// A moment in UTC, as programs have it: the seconds since 1970, and the nanosecond counted forward
/// from there.
///
/// Both numbers are tested when the moment is formatted. The default is the start of 1970.
#[repr(C)]
#[derive(Clone, Copy, Debug, Default, PartialEq, Eq, PartialOrd, Ord, Hash)]
#[must_use]
pub struct UtcMoment {
    /// The seconds since 1970-01-01T00:00:00 UTC, without leap seconds.
    pub seconds: i64,
    /// The nanosecond, below 1,000,000,000.
    pub nanosecond: u32,
}

impl UtcMoment {
    /// Returns the moment of these seconds since 1970-01-01T00:00:00 UTC, and this nanosecond.
    pub const fn new(seconds: i64, nanosecond: u32) -> Self {
        UtcMoment {
            seconds,
            nanosecond,
        }
    }

    /// Returns the moment with its local time, which is this many seconds ahead of UTC.
    pub const fn local(self, offset: i64) -> LocalMoment {
        LocalMoment {
            seconds: self.seconds,
            nanosecond: self.nanosecond,
            offset,
        }
    }
}

/// A moment, and how far the local time is ahead of UTC.
///
/// A format writes the local date and time, and the offset, as far as it has them. [`Stamp`](crate::Stamp)
/// is no format of it. The numbers are tested when the moment is formatted: an offset of more than 25:59:59
/// either way is [`Error::OffsetHours`]. A local date outside of the years -999,999 to 999,999 is
/// [`Error::FormatYear`].
///
/// ```
/// use movaliren::{Format, Iso8601, TimePrecision, UtcMoment};
///
/// const LINE: Iso8601 = Iso8601::new().time_precision(TimePrecision::Second, 3);
/// let moment = UtcMoment::new(879_350_106, 120_000_000).local(3_600);
/// assert_eq!(LINE.format(&moment)?, "1997-11-12T16:55:06.120+01:00");
/// # Ok::<(), movaliren::Error>(())
/// ```
#[derive(Clone, Copy, Debug, Default, PartialEq, Eq, PartialOrd, Ord, Hash)]
#[must_use]
pub struct LocalMoment {
    /// The seconds since 1970-01-01T00:00:00 UTC, without leap seconds.
    pub seconds: i64,
    /// The nanosecond, below 1,000,000,000.
    pub nanosecond: u32,
    /// The seconds by which the local time is ahead of UTC.
    pub offset: i64,
}

/// The date and time in UTC, of a moment of the years 0 to 9999.
///
/// They are read from the moment's [`Stamp`], so no other code knows the calendar. Another year is
/// [`Error::FormatYear`], or outside of -999,999 to 999,999 [`Error::MomentSeconds`].
///
/// ```
/// use movaliren::{Moment, UtcMoment};
///
/// let moment = Moment::try_from(UtcMoment::new(879_350_106, 120_000_000))?;
/// assert_eq!(moment, Moment::new(1997, 11, 12).at(15, 55, 6, 120_000_000));
/// # Ok::<(), movaliren::Error>(())
/// ```
impl TryFrom<UtcMoment> for Moment {
    type Error = Error;

    fn try_from(moment: UtcMoment) -> Result<Self, Error> {
        let mut buffer = [0; 30];
        let text = Stamp.format_into(&mut buffer, &moment)?.as_bytes();
        let digit = |place: usize| text[place] - b'0';
        let two = |place: usize| digit(place) * 10 + digit(place + 1);
        let year = i32::from(two(0)) * 100 + i32::from(two(2));
        Ok(Moment::new(year, two(5), two(8)).at(two(11), two(14), two(17), moment.nanosecond))
    }
}

#[cfg(feature = "std")]
mod clock {
    use super::{Error, UtcMoment};
    use std::time::{Duration, SystemTime, UNIX_EPOCH};

    impl UtcMoment {
        /// Returns the moment of the system's clock.
        ///
        /// ```
        /// use movaliren::{Rfc3339, UtcMoment};
        ///
        /// println!("{} opened", UtcMoment::now().display(Rfc3339));
        /// ```
        pub fn now() -> Self {
            SystemTime::now().into()
        }
    }

    /// The conversion is exact: on Linux a `SystemTime` holds its seconds in an `i64`.
    ///
    /// ```
    /// use movaliren::UtcMoment;
    /// use std::time::{Duration, UNIX_EPOCH};
    ///
    /// let before = UtcMoment::from(UNIX_EPOCH - Duration::from_nanos(1));
    /// assert_eq!(before, UtcMoment::new(-1, 999_999_999));
    /// ```
    impl From<SystemTime> for UtcMoment {
        fn from(time: SystemTime) -> Self {
            const FITS: &str = "on Linux a SystemTime holds its seconds in an i64";
            match time.duration_since(UNIX_EPOCH) {
                Ok(since) => {
                    let seconds = i64::try_from(since.as_secs()).expect(FITS);
                    UtcMoment::new(seconds, since.subsec_nanos())
                }
                Err(error) => {
                    let until = error.duration();
                    let (borrow, nanosecond) = match until.subsec_nanos() {
                        0 => (0, 0),
                        nanos => (1, 1_000_000_000 - nanos),
                    };
                    let seconds = -i128::from(until.as_secs()) - borrow;
                    UtcMoment::new(i64::try_from(seconds).expect(FITS), nanosecond)
                }
            }
        }
    }

    /// A nanosecond of 1,000,000,000 or more is [`Error::Nanosecond`]. Seconds that the standard library
    /// cannot reach from 1970 are [`Error::MomentSeconds`].
    ///
    /// ```
    /// use movaliren::{Error, UtcMoment};
    /// use std::time::{Duration, SystemTime, UNIX_EPOCH};
    ///
    /// let before = SystemTime::try_from(UtcMoment::new(-1, 999_999_999))?;
    /// assert_eq!(before, UNIX_EPOCH - Duration::from_nanos(1));
    /// let error = SystemTime::try_from(UtcMoment::new(0, 1_000_000_000));
    /// assert_eq!(error, Err(Error::Nanosecond));
    /// # Ok::<(), Error>(())
    /// ```
    impl TryFrom<UtcMoment> for SystemTime {
        type Error = Error;

        fn try_from(moment: UtcMoment) -> Result<Self, Error> {
            if moment.nanosecond >= 1_000_000_000 {
                return Err(Error::Nanosecond);
            }
            let seconds = Duration::from_secs(moment.seconds.unsigned_abs());
            let whole = if moment.seconds < 0 {
                UNIX_EPOCH.checked_sub(seconds)
            } else {
                UNIX_EPOCH.checked_add(seconds)
            };
            whole
                .and_then(|time| time.checked_add(Duration::from_nanos(moment.nanosecond.into())))
                .ok_or(Error::MomentSeconds)
        }
    }
}
