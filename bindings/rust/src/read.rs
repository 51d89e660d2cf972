//! Texts, read back.
use crate::call::{self, Read, Texts};
use crate::sys::ReadError;
use crate::{Description, Error, Iso8601, Rfc2822, Rfc3339};
use core::fmt;

impl Rfc3339 {
    /// Reads a text of RFC 3339, section 5.6, as a [`Moment`](crate::Moment) or a
    /// [`UtcMoment`](crate::UtcMoment).
    ///
    /// Its letters are capitals, its decimals one to nine or none. It has no second 60, and not the offset
    /// `-00:00`. Years are 0 to 9999. Nothing is allocated.
    ///
    /// # Errors
    ///
    /// The text is none of RFC 3339: the first byte at which it is none, and what could have come there.
    ///
    /// ```
    /// use movaliren::{Moment, Rfc3339, UtcMoment};
    ///
    /// let moment: UtcMoment = Rfc3339.read("1985-04-12T23:20:50.52Z")?;
    /// assert_eq!(moment, UtcMoment::new(482_196_050, 520_000_000));
    /// let error = Rfc3339.read::<Moment>("2026-02-29T00:00:00Z").unwrap_err();
    /// assert_eq!(error.to_string(), "byte 9: expected a digit from 0 to 8");
    /// # Ok::<(), movaliren::NotRead>(())
    /// ```
    pub fn read<V: Read>(&self, text: impl AsRef<[u8]>) -> Result<V, NotRead> {
        V::read_by(Texts::Rfc3339, text.as_ref()).map_err(Unread::place)
    }

    /// Reads a text of RFC 3339 of another program too: with a small `t` or `z`, with more than nine decimals,
    /// of which the first nine count, or with the offset `-00:00` of an unknown local time, which is read as UTC.
    ///
    /// # Errors
    ///
    /// The text is none of these: the first byte at which it is none, and what could have come there.
    ///
    /// ```
    /// use movaliren::{Rfc3339, UtcMoment};
    ///
    /// let moment: UtcMoment = Rfc3339.read_lenient("1985-04-12t23:20:50z")?;
    /// assert_eq!(moment, UtcMoment::new(482_196_050, 0));
    /// # Ok::<(), movaliren::NotRead>(())
    /// ```
    pub fn read_lenient<V: Read>(&self, text: impl AsRef<[u8]>) -> Result<V, NotRead> {
        V::read_by(Texts::Rfc3339Lenient, text.as_ref()).map_err(Unread::place)
    }
}

impl Rfc2822 {
    /// Reads a text of RFC 2822, section 3.3, in the form that [`Rfc2822`] writes, as a
    /// [`Moment`](crate::Moment) or a [`UtcMoment`](crate::UtcMoment).
    ///
    /// It has 31 bytes, with the weekday of the date, single spaces, a year from 1900 on, no second 60, and not the
    /// offset `-0000`. Nothing is allocated.
    ///
    /// # Errors
    ///
    /// The text is none of RFC 2822: the first byte at which it is none, whatever weekday is named, and what could
    /// have come there. A text that is wrong in the name of the weekday alone is refused at byte 0.
    ///
    /// ```
    /// use movaliren::{Moment, Rfc2822, UtcMoment};
    ///
    /// let moment: UtcMoment = Rfc2822.read("Fri, 21 Nov 1997 09:55:06 -0600")?;
    /// assert_eq!(moment, UtcMoment::new(880_127_706, 0));
    /// let error = Rfc2822.read::<Moment>("Sat, 21 Nov 1997 09:55:06 -0600").unwrap_err();
    /// assert_eq!(error.to_string(), "byte 0: expected `Fri`, the weekday of this date");
    /// # Ok::<(), movaliren::NotRead>(())
    /// ```
    pub fn read<V: Read>(&self, text: impl AsRef<[u8]>) -> Result<V, NotRead> {
        V::read_by(Texts::Rfc2822, text.as_ref()).map_err(Unread::place)
    }

    /// Reads a date of mail or of a feed.
    ///
    /// Beside what [`read`](Rfc2822::read) takes these are the obsolete forms of RFC 5322, section 4.3, and what mailers
    /// write: white space and comments between the parts, letters in either case, a day of one digit, a year of three
    /// digits, which are added to 1900, or of two, of 1950 to 2049, no weekday, no seconds, zones by name and by
    /// letter, where each letter but `J` is UTC, and `-0000`, which is UTC too. Second 60 is read as second 59.
    ///
    /// # Errors
    ///
    /// The text is none of these, as with a weekday that is not the date's or a zone without a meaning, as `CET`: where
    /// the first part that is none should begin, and which part could have come there.
    ///
    /// ```
    /// use movaliren::{Rfc2822, UtcMoment};
    ///
    /// let moment: UtcMoment = Rfc2822.read_lenient("21 Nov 97 09:55:06 GMT")?;
    /// assert_eq!(moment, UtcMoment::new(880_106_106, 0));
    /// # Ok::<(), movaliren::NotRead>(())
    /// ```
    pub fn read_lenient<V: Read>(&self, text: impl AsRef<[u8]>) -> Result<V, NotRead> {
        V::read_by(Texts::Rfc2822Lenient, text.as_ref()).map_err(Unread::place)
    }
}

impl Iso8601 {
    /// Reads a text of ISO 8601 that the configuration writes of a moment whose finer parts are zero.
    ///
    /// # Errors
    ///
    /// - [`Unread::Description`] with [`Error::Undetermined`]: the configuration does not write a date, a time and an
    ///   offset. Without an offset the texts of a [`UtcMoment`](crate::UtcMoment) are in UTC.
    /// - [`Unread::Text`]: no moment has this text: the place, and what could have come there.
    ///
    /// ```
    /// use movaliren::{Iso8601, TimePrecision, UtcMoment};
    ///
    /// const MILLISECONDS: Iso8601 = Iso8601::new().time_precision(TimePrecision::Second, 3);
    ///
    /// let moment: UtcMoment = MILLISECONDS.read("1997-11-12T15:55:06.120Z")?;
    /// assert_eq!(moment, UtcMoment::new(879_350_106, 120_000_000));
    /// # Ok::<(), movaliren::Unread>(())
    /// ```
    pub fn read<V: Read>(&self, text: impl AsRef<[u8]>) -> Result<V, Unread> {
        V::read_by(Texts::Iso8601(self), text.as_ref())
    }
}

impl Description {
    /// Reads a text that the description writes of a [`Moment`](crate::Moment) or a
    /// [`UtcMoment`](crate::UtcMoment).
    ///
    /// What is read is written as this very text. So a text is refused that no moment has, as one with another weekday
    /// than that of its date, or with zeros or spaces that the description does not write. What no text shows of a
    /// time of day or of an offset, behind the last part that is shown, is zero. Nothing is allocated.
    ///
    /// # Errors
    ///
    /// - [`Unread::Description`] with [`Error::Undetermined`]: the texts do not determine a moment, as those of a date
    ///   alone, or have a number of no certain width before another one. For a `Moment` they show an offset; without one
    ///   the texts of a `UtcMoment` are in UTC.
    /// - [`Unread::Text`]: no moment has this text: the place, and what could have come there.
    ///
    /// ```
    /// use movaliren::{Description, UtcMoment};
    ///
    /// let line = Description::parse_strftime("%d/%b/%Y:%H:%M:%S %z").unwrap();
    /// let moment: UtcMoment = line.read("10/Oct/2000:13:55:36 -0700")?;
    /// assert_eq!(moment, UtcMoment::new(971_211_336, 0));
    /// # Ok::<(), movaliren::Unread>(())
    /// ```
    pub fn read<V: Read>(&self, text: impl AsRef<[u8]>) -> Result<V, Unread> {
        V::read_by(Texts::Description(self), text.as_ref())
    }
}

/// Where a text could not be read, and by `Display` what could have stood there.
///
/// By RFC 3339 it is the first byte with which no text of the format goes on, or the end of a text that is too short. By
/// [`Rfc2822`], [`Iso8601`] and a [`Description`] it is where the part should begin that could have come, or the first
/// byte that is written otherwise.
#[derive(Clone, Copy, Debug, PartialEq, Eq, Hash)]
#[non_exhaustive]
pub struct NotRead {
    /// The number of bytes that are right.
    pub at: usize,
    pub(crate) fault: ReadError,
}

/// Why no moment was read by a description or by ISO 8601.
#[derive(Clone, Copy, Debug, PartialEq, Eq, Hash)]
#[non_exhaustive]
pub enum Unread {
    /// No text is read by this description or configuration.
    Description(Error),
    /// This text is not read.
    Text(NotRead),
}

impl Unread {
    /// The place in the text, which a format has that reads a text always.
    fn place(self) -> NotRead {
        match self {
            Unread::Text(place) => place,
            Unread::Description(_) => NotRead {
                at: 0,
                fault: ReadError::default(),
            },
        }
    }
}

impl fmt::Display for Unread {
    fn fmt(&self, f: &mut fmt::Formatter<'_>) -> fmt::Result {
        match self {
            Unread::Description(error) => error.fmt(f),
            Unread::Text(place) => place.fmt(f),
        }
    }
}

#[cfg(feature = "std")]
impl std::error::Error for Unread {}

#[cfg(feature = "std")]
impl std::error::Error for NotRead {}

impl fmt::Display for NotRead {
    fn fmt(&self, f: &mut fmt::Formatter<'_>) -> fmt::Result {
        f.write_str(call::words_of_read_error(&self.fault, &mut [0; 128]))
    }
}
