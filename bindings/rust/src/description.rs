//! Descriptions of texts, and dates.
use crate::call::{self, Syntax};
use crate::sys::{self, ParseError};
use crate::{Format, LocalMoment, Moment, UtcMoment};
use alloc::boxed::Box;
use core::fmt;

/// A date alone, for a description.
#[derive(Clone, Copy, Debug, PartialEq, Eq, PartialOrd, Ord, Hash)]
pub struct Date {
    /// The year, -999,999 to 999,999.
    pub year: i32,
    /// The month, 1 to 12.
    pub month: u8,
    /// The day of the month.
    pub day: u8,
}

/// A description of a text, read from brackets or from the syntax of `strftime`. It formats a [`Moment`], a
/// [`UtcMoment`], a [`LocalMoment`] and a [`Date`].
///
/// It is read once, and then formats and reads any number of texts. Its own text has at most 512 bytes, and 64 items: a
/// component, a conversion such as `%Y`, or the text between two of these is one, and `%c` is 13.
#[derive(Clone, Debug)]
#[must_use]
pub struct Description {
    pub(crate) form: Box<sys::Description>,
    width: usize,
}

impl Description {
    /// Reads a description in brackets, as `[year]-[month]-[day]`.
    ///
    /// # Errors
    ///
    /// The text is none: the reason, and the byte.
    ///
    /// ```
    /// use movaliren::{Date, Description, Format};
    ///
    /// let day = Description::parse("[day padding:none] [month repr:long] [year]")?;
    /// let date = Date { year: 2026, month: 11, day: 2 };
    /// assert_eq!(day.format(&date).as_deref(), Ok("2 November 2026"));
    /// let error = Description::parse("[yaer]").unwrap_err();
    /// assert_eq!(error.to_string(), "unknown component at byte 1");
    /// # Ok::<(), movaliren::InvalidDescription>(())
    /// ```
    pub fn parse(text: &str) -> Result<Self, InvalidDescription> {
        Description::parsed(text, Syntax::Brackets)
    }

    /// Reads a description in the syntax of `strftime`.
    ///
    /// # Errors
    ///
    /// The text is none: the reason, and the byte.
    ///
    /// ```
    /// use movaliren::{Description, Format, UtcMoment};
    ///
    /// let line = Description::parse_strftime("%a, %d %b %Y %H:%M:%S")?;
    /// let text = line.format(&UtcMoment::new(880_127_706, 0));
    /// assert_eq!(text.as_deref(), Ok("Fri, 21 Nov 1997 15:55:06"));
    /// let error = Description::parse_strftime("%Q").unwrap_err();
    /// assert_eq!(error.to_string(), "unknown conversion `%Q` at byte 1");
    /// # Ok::<(), movaliren::InvalidDescription>(())
    /// ```
    pub fn parse_strftime(text: &str) -> Result<Self, InvalidDescription> {
        Description::parsed(text, Syntax::Strftime)
    }

    /// The most bytes that a text has.
    #[inline]
    #[must_use]
    pub const fn width(&self) -> usize {
        self.width
    }

    fn parsed(text: &str, syntax: Syntax) -> Result<Self, InvalidDescription> {
        let form = call::parse(text, syntax).map_err(|fault| InvalidDescription {
            fault,
            at: fault.at,
        })?;
        let width = call::max_length(&form);
        Ok(Description { form, width })
    }
}

macro_rules! described {
    ($($value:ty),*) => { $(
        impl Format<$value> for Description {
            #[inline]
            fn width(&self) -> usize {
                self.width
            }
        }
    )* };
}

described!(Moment, UtcMoment, LocalMoment, Date);

/// Why a text is no description, in words by `Display`, and at which byte.
#[derive(Clone, Copy, Debug, PartialEq, Eq, Hash)]
#[non_exhaustive]
pub struct InvalidDescription {
    /// The index of the byte.
    pub at: usize,
    fault: ParseError,
}

impl fmt::Display for InvalidDescription {
    fn fmt(&self, f: &mut fmt::Formatter<'_>) -> fmt::Result {
        f.write_str(call::words_of_parse_error(&self.fault, &mut [0; 128]))
    }
}

#[cfg(feature = "std")]
impl std::error::Error for InvalidDescription {}
