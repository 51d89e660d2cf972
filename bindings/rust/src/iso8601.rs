//! ISO 8601, by a configuration.
use crate::sys::Iso8601Config;
use crate::{Format, LocalMoment, Moment, UtcMoment};

/// The parts of a text.
#[derive(Clone, Copy, Debug, PartialEq, Eq, Hash)]
pub enum Parts {
    /// The date alone.
    Date = 1,
    /// The time alone.
    Time = 2,
    /// The offset alone.
    Offset = 3,
    /// The date and the time.
    DateTime = 4,
    /// All three.
    DateTimeOffset = 5,
    /// The time and the offset.
    TimeOffset = 6,
}

/// The kind of the date in a text.
#[derive(Clone, Copy, Debug, PartialEq, Eq, Hash)]
pub enum DateKind {
    /// The year, the month and the day.
    Calendar = 0,
    /// The year of the week calendar, its week and the weekday.
    Week = 1,
    /// The year and the day of the year.
    Ordinal = 2,
}

/// The smallest whole unit of a time.
#[derive(Clone, Copy, Debug, PartialEq, Eq, Hash)]
pub enum TimePrecision {
    /// The hour.
    Hour = 0,
    /// The minute.
    Minute = 1,
    /// The second.
    Second = 2,
}

/// The smallest unit of an offset.
#[derive(Clone, Copy, Debug, PartialEq, Eq, Hash)]
pub enum OffsetPrecision {
    /// The hour. An offset with minutes has no text.
    Hour = 0,
    /// The minute.
    Minute = 1,
}

/// The sign before decimals.
#[derive(Clone, Copy, Debug, PartialEq, Eq, Hash)]
pub enum DecimalSign {
    /// `.`.
    Point = 0,
    /// `,`.
    Comma = 1,
}

/// ISO 8601, at first with a date, a time of nine decimals and an offset, as `1997-11-12T09:55:06.000000000-06:00`.
///
/// Years are 0 to 9999, and with six digits -999,999 to 999,999. Offsets have no seconds. The setters are `const`, so
/// a configuration can be a constant:
///
/// ```
/// use movaliren::{DateKind, DecimalSign, Format, Iso8601, Moment, TimePrecision};
///
/// const MILLISECONDS: Iso8601 = Iso8601::new().time_precision(TimePrecision::Second, 3);
/// const WEEK: Iso8601 = MILLISECONDS.date_kind(DateKind::Week).decimal_sign(DecimalSign::Comma);
///
/// let moment = Moment::new(1997, 11, 12).at(9, 55, 6, 120_000_000).offset(-6, 0, 0);
/// assert_eq!(Iso8601::new().format(&moment)?, "1997-11-12T09:55:06.120000000-06:00");
/// assert_eq!(MILLISECONDS.format(&moment)?, "1997-11-12T09:55:06.120-06:00");
/// assert_eq!(WEEK.format(&moment)?, "1997-W46-3T09:55:06,120-06:00");
/// # Ok::<(), movaliren::Error>(())
/// ```
#[derive(Clone, Copy, Debug, PartialEq, Eq, Hash)]
#[must_use]
pub struct Iso8601 {
    pub(crate) config: Iso8601Config,
}

impl Default for Iso8601 {
    fn default() -> Self {
        Iso8601::new()
    }
}

impl Iso8601 {
    /// Returns the usual configuration.
    pub const fn new() -> Self {
        let config = Iso8601Config {
            parts: Parts::DateTimeOffset as u8,
            date_kind: DateKind::Calendar as u8,
            time_precision: TimePrecision::Second as u8,
            decimals: 9,
            offset_precision: OffsetPrecision::Minute as u8,
            use_separators: 1,
            year_is_six_digits: 0,
            comma: DecimalSign::Point as u8,
        };
        Iso8601 { config }
    }

    /// Sets the parts that are written.
    pub const fn parts(mut self, parts: Parts) -> Self {
        self.config.parts = parts as u8;
        self
    }

    /// Sets the kind of date.
    pub const fn date_kind(mut self, kind: DateKind) -> Self {
        self.config.date_kind = kind as u8;
        self
    }

    /// Sets the smallest unit of the time, and the number of its decimals. 0 writes none.
    pub const fn time_precision(mut self, precision: TimePrecision, decimals: u8) -> Self {
        self.config.time_precision = precision as u8;
        self.config.decimals = decimals;
        self
    }

    /// Sets the smallest unit of the offset.
    pub const fn offset_precision(mut self, precision: OffsetPrecision) -> Self {
        self.config.offset_precision = precision as u8;
        self
    }

    /// Sets whether separators are written.
    pub const fn separators(mut self, use_separators: bool) -> Self {
        self.config.use_separators = use_separators as u8;
        self
    }

    /// Sets whether the year has a sign and six digits, or four digits.
    pub const fn six_digit_year(mut self, is_six_digits: bool) -> Self {
        self.config.year_is_six_digits = is_six_digits as u8;
        self
    }

    /// Sets the sign before the decimals.
    pub const fn decimal_sign(mut self, sign: DecimalSign) -> Self {
        self.config.comma = sign as u8;
        self
    }

    /// A number of bytes that no text exceeds: those of `+123456-MM-DDTHH:MM:SS.+HH:MM`, and the decimals.
    #[inline]
    #[must_use]
    pub const fn width(&self) -> usize {
        29 + self.config.decimals as usize
    }
}

macro_rules! configured {
    ($($value:ty),*) => { $(
        impl Format<$value> for Iso8601 {
            #[inline]
            fn width(&self) -> usize {
                self.width()
            }
        }
    )* };
}

configured!(Moment, UtcMoment, LocalMoment);
