//! What `bindings/interface.py` writes from the code of the library.
use crate::{Moment, UtcMoment};

#[repr(C)]
#[derive(Clone, Copy, Debug, Default, PartialEq, Eq, Hash)]
pub(crate) struct Item {
    pub(crate) kind: u32,
    pub(crate) padding: u8,
    pub(crate) flag: u8,
    pub(crate) digits: u8,
    pub(crate) byte: u8,
    pub(crate) start: usize,
    pub(crate) len: usize,
}

#[repr(C)]
#[derive(Clone, Copy, Debug, Default, PartialEq, Eq, Hash)]
pub(crate) struct ParseError {
    pub(crate) at: usize,
    pub(crate) items: usize,
    pub(crate) kind: u8,
    pub(crate) byte: u8,
}

#[repr(C)]
#[derive(Clone, Copy, Debug)]
pub(crate) struct Description {
    pub(crate) unused: usize,
    pub(crate) texts_len: usize,
    pub(crate) kinds: u32,
    pub(crate) way: u32,
    pub(crate) items: [Item; 64],
    pub(crate) texts: [u8; 512],
}

#[repr(C)]
#[derive(Clone, Copy, Debug, Default, PartialEq, Eq, Hash)]
pub(crate) struct Iso8601Config {
    pub(crate) parts: u8,
    pub(crate) date_kind: u8,
    pub(crate) time_precision: u8,
    pub(crate) decimals: u8,
    pub(crate) offset_precision: u8,
    pub(crate) use_separators: u8,
    pub(crate) year_is_six_digits: u8,
    pub(crate) comma: u8,
}

#[repr(C)]
#[derive(Clone, Copy, Debug, Default, PartialEq, Eq, Hash)]
pub(crate) struct ReadError {
    pub(crate) at: usize,
    pub(crate) expected: u8,
    pub(crate) first: u8,
    pub(crate) last: u8,
    pub(crate) is_lenient: u8,
    pub(crate) is_second_60: u8,
}

// Some are for C alone.
#[allow(dead_code)]
extern "C" {
    pub(crate) fn movaliren_version() -> u32;
    pub(crate) fn movaliren_strerror_r(error: isize, buffer: *mut u8, buffer_size: usize) -> isize;
    pub(crate) fn movaliren_rfc3339(moment: *const Moment, buffer: *mut u8, buffer_size: usize) -> isize;
    pub(crate) fn movaliren_rfc2822(moment: *const Moment, buffer: *mut u8, buffer_size: usize) -> isize;
    pub(crate) fn movaliren_imf_fixdate(moment: *const Moment, buffer: *mut u8, buffer_size: usize) -> isize;
    pub(crate) fn movaliren_iso8601(moment: *const Moment, buffer: *mut u8, buffer_size: usize) -> isize;
    pub(crate) fn movaliren_stamp_utc(seconds: i64, nanosecond: u32, buffer: *mut u8, buffer_size: usize) -> isize;
    pub(crate) fn movaliren_iso8601_with(config: *const Iso8601Config, moment: *const Moment, buffer: *mut u8, buffer_size: usize) -> isize;
    pub(crate) fn movaliren_rfc3339_utc(seconds: i64, nanosecond: u32, buffer: *mut u8, buffer_size: usize) -> isize;
    pub(crate) fn movaliren_rfc2822_utc(seconds: i64, nanosecond: u32, buffer: *mut u8, buffer_size: usize) -> isize;
    pub(crate) fn movaliren_imf_fixdate_utc(seconds: i64, nanosecond: u32, buffer: *mut u8, buffer_size: usize) -> isize;
    pub(crate) fn movaliren_iso8601_utc(seconds: i64, nanosecond: u32, buffer: *mut u8, buffer_size: usize) -> isize;
    pub(crate) fn movaliren_iso8601_with_utc(config: *const Iso8601Config, seconds: i64, nanosecond: u32, buffer: *mut u8, buffer_size: usize) -> isize;
    pub(crate) fn movaliren_rfc3339_local(seconds: i64, nanosecond: u32, offset: i64, buffer: *mut u8, buffer_size: usize) -> isize;
    pub(crate) fn movaliren_rfc2822_local(seconds: i64, nanosecond: u32, offset: i64, buffer: *mut u8, buffer_size: usize) -> isize;
    pub(crate) fn movaliren_iso8601_local(seconds: i64, nanosecond: u32, offset: i64, buffer: *mut u8, buffer_size: usize) -> isize;
    pub(crate) fn movaliren_iso8601_with_local(config: *const Iso8601Config, seconds: i64, nanosecond: u32, offset: i64, buffer: *mut u8, buffer_size: usize) -> isize;
    pub(crate) fn movaliren_read_rfc3339(text: *const u8, text_len: usize, moment: *mut Moment, error: *mut ReadError) -> isize;
    pub(crate) fn movaliren_read_rfc3339_utc(text: *const u8, text_len: usize, moment: *mut UtcMoment, error: *mut ReadError) -> isize;
    pub(crate) fn movaliren_read_rfc3339_lenient(text: *const u8, text_len: usize, moment: *mut Moment, error: *mut ReadError) -> isize;
    pub(crate) fn movaliren_read_rfc3339_lenient_utc(text: *const u8, text_len: usize, moment: *mut UtcMoment, error: *mut ReadError) -> isize;
    pub(crate) fn movaliren_read_rfc2822(text: *const u8, text_len: usize, moment: *mut Moment, error: *mut ReadError) -> isize;
    pub(crate) fn movaliren_read_rfc2822_utc(text: *const u8, text_len: usize, moment: *mut UtcMoment, error: *mut ReadError) -> isize;
    pub(crate) fn movaliren_read_rfc2822_lenient(text: *const u8, text_len: usize, moment: *mut Moment, error: *mut ReadError) -> isize;
    pub(crate) fn movaliren_read_rfc2822_lenient_utc(text: *const u8, text_len: usize, moment: *mut UtcMoment, error: *mut ReadError) -> isize;
    pub(crate) fn movaliren_read_iso8601(text: *const u8, text_len: usize, moment: *mut Moment, error: *mut ReadError) -> isize;
    pub(crate) fn movaliren_read_iso8601_utc(text: *const u8, text_len: usize, moment: *mut UtcMoment, error: *mut ReadError) -> isize;
    pub(crate) fn movaliren_read_iso8601_with(config: *const Iso8601Config, text: *const u8, text_len: usize, moment: *mut Moment, error: *mut ReadError) -> isize;
    pub(crate) fn movaliren_read_iso8601_with_utc(config: *const Iso8601Config, text: *const u8, text_len: usize, moment: *mut UtcMoment, error: *mut ReadError) -> isize;
    pub(crate) fn movaliren_description_parse(description: *mut Description, text: *const u8, text_len: usize, error: *mut ParseError) -> isize;
    pub(crate) fn movaliren_description_parse_strftime(description: *mut Description, text: *const u8, text_len: usize, error: *mut ParseError) -> isize;
    pub(crate) fn movaliren_description_format(description: *const Description, moment: *const Moment, buffer: *mut u8, buffer_size: usize) -> isize;
    pub(crate) fn movaliren_description_format_utc(description: *const Description, seconds: i64, nanosecond: u32, buffer: *mut u8, buffer_size: usize) -> isize;
    pub(crate) fn movaliren_description_format_local(description: *const Description, seconds: i64, nanosecond: u32, offset: i64, buffer: *mut u8, buffer_size: usize) -> isize;
    pub(crate) fn movaliren_description_format_date(description: *const Description, year: i32, month: u8, day: u8, buffer: *mut u8, buffer_size: usize) -> isize;
    pub(crate) fn movaliren_description_max_length(description: *const Description) -> isize;
    pub(crate) fn movaliren_description_read(description: *const Description, text: *const u8, text_len: usize, moment: *mut Moment, error: *mut ReadError) -> isize;
    pub(crate) fn movaliren_description_read_utc(description: *const Description, text: *const u8, text_len: usize, moment: *mut UtcMoment, error: *mut ReadError) -> isize;
    pub(crate) fn movaliren_read_strerror_r(error: *const ReadError, buffer: *mut u8, buffer_size: usize) -> isize;
    pub(crate) fn movaliren_parse_strerror_r(error: *const ParseError, buffer: *mut u8, buffer_size: usize) -> isize;
    pub(crate) fn movaliren_format_brackets_utc(text: *const u8, text_len: usize, seconds: i64, nanosecond: u32, buffer: *mut u8, buffer_size: usize) -> isize;
    pub(crate) fn movaliren_format_brackets_local(text: *const u8, text_len: usize, seconds: i64, nanosecond: u32, offset: i64, buffer: *mut u8, buffer_size: usize) -> isize;
    pub(crate) fn movaliren_format_strftime_utc(text: *const u8, text_len: usize, seconds: i64, nanosecond: u32, buffer: *mut u8, buffer_size: usize) -> isize;
    pub(crate) fn movaliren_format_strftime_local(text: *const u8, text_len: usize, seconds: i64, nanosecond: u32, offset: i64, buffer: *mut u8, buffer_size: usize) -> isize;
}

/// The reason why there is no text, or none is read.
#[derive(Clone, Copy, Debug, PartialEq, Eq, Hash)]
#[non_exhaustive]
#[repr(i8)]
pub enum Error {
    /// The year is outside -999999 to 999999.
    Year = -1,
    /// The month is outside 1 to 12.
    Month = -2,
    /// The month has no such day.
    Day = -3,
    /// The hour is outside 0 to 23.
    Hour = -4,
    /// The minute is outside 0 to 59.
    Minute = -5,
    /// The second is outside 0 to 59.
    Second = -6,
    /// The nanosecond is outside 0 to 999999999.
    Nanosecond = -7,
    /// The hours of the offset are outside -25 to 25.
    OffsetHours = -8,
    /// The minutes of the offset are outside -59 to 59, or of another sign than its hours.
    OffsetMinutes = -9,
    /// The seconds of the offset are outside -59 to 59, or of another sign than its hours or minutes.
    OffsetSeconds = -10,
    /// The seconds are outside the years -999999 to 999999.
    MomentSeconds = -11,
    /// The format cannot represent the year.
    FormatYear = -12,
    /// The format cannot represent the hours of the offset.
    FormatOffsetHour = -13,
    /// The format cannot represent the minutes of the offset.
    FormatOffsetMinute = -14,
    /// The format cannot represent the seconds of the offset.
    FormatOffsetSecond = -15,
    /// The value lacks a component of the format.
    Insufficient = -16,
    /// A component is outside the range of its item.
    OutOfRange = -17,
    /// Invalid configuration value.
    BadConfig = -18,
    /// Invalid item.
    BadItem = -19,
    /// The text does not fit the buffer.
    BufferTooSmall = -20,
    /// The text is not one of the format.
    NotRead = -23,
    /// The text is not a description.
    BadDescription = -24,
    /// The description has more items than there is room for.
    ManyItems = -25,
    /// The texts do not determine a moment.
    Undetermined = -26,
    /// A reason of a later library, which this crate does not know.
    Unknown = i8::MIN,
}

pub(crate) fn error_of(number: isize) -> Error {
    match number {
        -1 => Error::Year,
        -2 => Error::Month,
        -3 => Error::Day,
        -4 => Error::Hour,
        -5 => Error::Minute,
        -6 => Error::Second,
        -7 => Error::Nanosecond,
        -8 => Error::OffsetHours,
        -9 => Error::OffsetMinutes,
        -10 => Error::OffsetSeconds,
        -11 => Error::MomentSeconds,
        -12 => Error::FormatYear,
        -13 => Error::FormatOffsetHour,
        -14 => Error::FormatOffsetMinute,
        -15 => Error::FormatOffsetSecond,
        -16 => Error::Insufficient,
        -17 => Error::OutOfRange,
        -18 => Error::BadConfig,
        -19 => Error::BadItem,
        -20 => Error::BufferTooSmall,
        -23 => Error::NotRead,
        -24 => Error::BadDescription,
        -25 => Error::ManyItems,
        -26 => Error::Undetermined,
        _ => Error::Unknown,
    }
}
