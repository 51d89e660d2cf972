//! The formats of standards, and stamps.
use crate::{Format, LocalMoment, Moment, UtcMoment};

/// RFC 3339, as `1985-04-12T23:20:50.52Z`.
///
/// A text has at most 35 bytes. Years are 0 to 9999. Offsets are below 24 hours and have no seconds.
#[derive(Clone, Copy, Debug, Default, PartialEq, Eq, Hash)]
pub struct Rfc3339;

/// RFC 2822, as `Fri, 21 Nov 1997 09:55:06 -0600`.
///
/// A text has 31 bytes. Years are 1900 to 9999. Offsets have no seconds. The fraction of the second is
/// left out.
#[derive(Clone, Copy, Debug, Default, PartialEq, Eq, Hash)]
pub struct Rfc2822;

/// The date of HTTP (RFC 9110, section 5.6.7), as `Sun, 06 Nov 1994 08:49:37 GMT`.
///
/// A text has 29 bytes. Years are 0 to 9999. The offset is zero. The fraction of the second is left out.
///
/// ```
/// use movaliren::{Format, ImfFixdate, UtcMoment};
///
/// let text = ImfFixdate.format(&UtcMoment::new(784_111_777, 0))?;
/// assert_eq!(text, "Sun, 06 Nov 1994 08:49:37 GMT");
/// # Ok::<(), movaliren::Error>(())
/// ```
#[derive(Clone, Copy, Debug, Default, PartialEq, Eq, Hash)]
pub struct ImfFixdate;

/// Stamps of moments in UTC, as `1997-11-12T15:55:06.000000000Z`.
///
/// A text has 30 bytes. The bytes of two texts are in the order of their moments. Years are 0 to 9999.
///
/// ```
/// use movaliren::{Format, Stamp, UtcMoment};
///
/// let text = Stamp.format(&UtcMoment::new(879_350_106, 0))?;
/// assert_eq!(text, "1997-11-12T15:55:06.000000000Z");
/// # Ok::<(), movaliren::Error>(())
/// ```
#[derive(Clone, Copy, Debug, Default, PartialEq, Eq, Hash)]
pub struct Stamp;

macro_rules! widths {
    ($($format:ident over $($value:ty),*: $width:literal bytes;)*) => { $( $(
        impl Format<$value> for $format {
            #[inline]
            fn width(&self) -> usize {
                $width
            }
        }
    )* )* };
}

widths! {
    Rfc3339 over Moment, UtcMoment, LocalMoment: 35 bytes;
    Rfc2822 over Moment, UtcMoment, LocalMoment: 31 bytes;
    ImfFixdate over Moment, UtcMoment: 29 bytes;
    Stamp over UtcMoment: 30 bytes;
}
