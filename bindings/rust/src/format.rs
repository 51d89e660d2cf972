//! What all formats do.
use crate::call::Call;
use crate::{call, Date, Error, LocalMoment, Moment, UtcMoment};
use alloc::borrow::ToOwned;
use alloc::boxed::Box;
use alloc::rc::Rc;
use alloc::string::String;
use alloc::sync::Arc;
use alloc::vec;
use core::fmt;

/// A format of values of the type `V`.
///
/// There are three ways to a text: [`format`](Format::format) returns a `String`,
/// [`format_into`](Format::format_into) writes to a buffer without an allocation, and `display` of a value, as
/// [`Moment::display`], is for `{}`. This trait is sealed: the formats of this crate implement it.
///
/// `&F`, `Box<F>`, `Rc<F>` and `Arc<F>` of a format are formats, so one is chosen when the program runs:
///
/// ```
/// use movaliren::{Format, Moment, Rfc2822, Rfc3339};
///
/// fn chosen(is_mail: bool) -> Box<dyn Format<Moment>> {
///     if is_mail {
///         Box::new(Rfc2822)
///     } else {
///         Box::new(Rfc3339)
///     }
/// }
///
/// assert_eq!(chosen(false).format(&Moment::new(2026, 11, 22))?, "2026-11-22T00:00:00Z");
/// # Ok::<(), movaliren::Error>(())
/// ```
pub trait Format<V>: Call<V> {
    /// A number of bytes that no text exceeds: the room that is always enough.
    fn width(&self) -> usize;

    /// Writes the text of the value to the start of the buffer, and returns it. Nothing is allocated.
    ///
    /// The bytes after the text are unchanged. After an error the whole buffer is.
    ///
    /// # Errors
    ///
    /// The value has no text: most reasons name the part that is out of its range, or the one that the format
    /// cannot represent. Or the buffer is shorter than the text: [`Error::BufferTooSmall`].
    ///
    /// ```
    /// use movaliren::{Error, Format, Moment, Rfc2822};
    ///
    /// let mut buffer = [0; 31];
    /// let text = Rfc2822.format_into(&mut buffer, &Moment::new(2026, 11, 22))?;
    /// assert_eq!(text, "Sun, 22 Nov 2026 00:00:00 +0000");
    /// let short = &mut buffer[..30];
    /// assert_eq!(Rfc2822.format_into(short, &Moment::new(2026, 11, 22)), Err(Error::BufferTooSmall));
    /// # Ok::<(), Error>(())
    /// ```
    #[inline]
    fn format_into<'a>(&self, buffer: &'a mut [u8], value: &V) -> Result<&'a str, Error> {
        call::write(self, value, buffer)
    }

    /// Returns the text of the value.
    ///
    /// # Errors
    ///
    /// Those of [`format_into`](Format::format_into), but for [`Error::BufferTooSmall`].
    fn format(&self, value: &V) -> Result<String, Error> {
        with_text(self, value, str::to_owned)
    }
}

/// What is made of the text of the value, which is allocated where it may have more than 64 bytes.
fn with_text<V, T>(
    format: &(impl Format<V> + ?Sized),
    value: &V,
    made: impl FnOnce(&str) -> T,
) -> Result<T, Error> {
    match format.width() {
        0..=64 => format.format_into(&mut [0; 64], value).map(made),
        width => format.format_into(&mut vec![0; width], value).map(made),
    }
}

macro_rules! behind_pointers {
    ($($pointer:ty),*) => { $(
        impl<V, F: Format<V> + ?Sized> Format<V> for $pointer {
            #[inline]
            fn width(&self) -> usize {
                (**self).width()
            }
        }
    )* };
}

behind_pointers!(&F, Box<F>, Rc<F>, Arc<F>);

/// A value with a format, for `{}`: [`Moment::display`] and those of the other values make one.
///
/// A value that the format refuses is shown as the reason in angle brackets, so `to_string` does not panic.
///
/// ```
/// use movaliren::{Moment, Rfc3339};
///
/// let moment = Moment::new(2026, 11, 22);
/// assert_eq!(format!("{} opened", moment.display(Rfc3339)), "2026-11-22T00:00:00Z opened");
/// let none = Moment::new(2026, 11, 31);
/// assert_eq!(none.display(Rfc3339).to_string(), "<the month has no such day>");
/// ```
#[derive(Clone, Copy, Debug)]
pub struct Formatted<V, F> {
    value: V,
    format: F,
}

impl<V, F: Format<V>> fmt::Display for Formatted<V, F> {
    fn fmt(&self, f: &mut fmt::Formatter<'_>) -> fmt::Result {
        match with_text(&self.format, &self.value, |text| f.pad(text)) {
            Ok(shown) => shown,
            Err(error) => write!(f, "<{error}>"),
        }
    }
}

macro_rules! displayed {
    ($($value:ty),*) => { $(
        impl $value {
            /// Returns the value with a format of it, for `{}`. A value that the format refuses is shown as the
            /// reason in angle brackets.
            pub const fn display<F: Format<Self>>(self, format: F) -> Formatted<Self, F> {
                Formatted {
                    value: self,
                    format,
                }
            }
        }
    )* };
}

displayed!(Moment, UtcMoment, LocalMoment, Date);
