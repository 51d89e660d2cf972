//! The calls of the library.
//!
//! A call passes slices, whose pointers are never null and which have at most `isize::MAX` bytes.
//! The buffer is borrowed mutably, so it overlaps nothing else. Each struct that crosses is
//! `#[repr(C)]`, with the fields of the header in its order. The library keeps no pointer. It writes
//! bytes of a buffer or leaves them as they were.
use crate::sys::{self, error_of, Iso8601Config, Item, ParseError, ReadError};
use crate::{
    Date, Description, Error, Format, ImfFixdate, Iso8601, LocalMoment, Moment, NotRead, Rfc2822,
    Rfc3339, Stamp, Unread, UtcMoment,
};
use alloc::boxed::Box;
use alloc::rc::Rc;
use alloc::sync::Arc;
use core::mem::size_of;
use core::str;

const _: () = assert!(size_of::<Moment>() == 20);
const _: () = assert!(size_of::<UtcMoment>() == 16);
const _: () = assert!(size_of::<Iso8601Config>() == 8);
const _: () = assert!(size_of::<Item>() == 24);
const _: () = assert!(size_of::<ReadError>() == 16);
const _: () = assert!(size_of::<ParseError>() == 24);
const _: () = assert!(size_of::<sys::Description>() == 2072);

// ---- texts

/// A format, by the function of the library that writes its text.
///
/// # Safety
///
/// The function writes to the start of the buffer alone. It returns a negative number, or how many bytes of the
/// buffer are the text, which is UTF-8.
pub unsafe trait Call<V> {
    /// # Safety
    ///
    /// The buffer has this many bytes, and nothing else is in them.
    #[doc(hidden)]
    unsafe fn call(&self, value: &V, buffer: *mut u8, size: usize) -> isize;
}

macro_rules! behind_pointers {
    ($($pointer:ty),*) => { $(
        // SAFETY: this is the call of the format that is pointed to.
        unsafe impl<V, F: Call<V> + ?Sized> Call<V> for $pointer {
            #[inline]
            unsafe fn call(&self, value: &V, buffer: *mut u8, size: usize) -> isize {
                // SAFETY: the caller has the same duty.
                unsafe { (**self).call(value, buffer, size) }
            }
        }
    )* };
}

behind_pointers!(&F, Box<F>, Rc<F>, Arc<F>);

macro_rules! calls {
    ($($format:ty, $value:ty: |$self:pat_param, $v:ident| $function:ident($($argument:expr),*);)*) => { $(
        // SAFETY: the function returns a negative number, or how many bytes it has written to the start of the buffer.
        // These are ASCII, and whole literals of a description, which are UTF-8.
        unsafe impl Call<$value> for $format {
            #[inline]
            unsafe fn call(&self, $v: &$value, buffer: *mut u8, size: usize) -> isize {
                let $self = self;
                // SAFETY: the structs have the header's layout, a pointer to a slice comes with its length, and the
                // caller passes a buffer of this size.
                unsafe { sys::$function($($argument,)* buffer, size) }
            }
        }
    )* };
}

calls! {
    Rfc3339, Moment: |_, m| movaliren_rfc3339(m);
    Rfc3339, UtcMoment: |_, m| movaliren_rfc3339_utc(m.seconds, m.nanosecond);
    Rfc3339, LocalMoment: |_, m| movaliren_rfc3339_local(m.seconds, m.nanosecond, m.offset);
    Rfc2822, Moment: |_, m| movaliren_rfc2822(m);
    Rfc2822, UtcMoment: |_, m| movaliren_rfc2822_utc(m.seconds, m.nanosecond);
    Rfc2822, LocalMoment: |_, m| movaliren_rfc2822_local(m.seconds, m.nanosecond, m.offset);
    ImfFixdate, Moment: |_, m| movaliren_imf_fixdate(m);
    ImfFixdate, UtcMoment: |_, m| movaliren_imf_fixdate_utc(m.seconds, m.nanosecond);
    Stamp, UtcMoment: |_, m| movaliren_stamp_utc(m.seconds, m.nanosecond);
    Iso8601, Moment: |by, m| movaliren_iso8601_with(&by.config, m);
    Iso8601, UtcMoment: |by, m| movaliren_iso8601_with_utc(&by.config, m.seconds, m.nanosecond);
    Iso8601, LocalMoment: |by, m| movaliren_iso8601_with_local(&by.config, m.seconds, m.nanosecond, m.offset);
    Description, Moment: |by, m| movaliren_description_format(&*by.form, m);
    Description, UtcMoment: |by, m| movaliren_description_format_utc(&*by.form, m.seconds, m.nanosecond);
    Description, LocalMoment: |by, m| movaliren_description_format_local(&*by.form, m.seconds, m.nanosecond, m.offset);
    Description, Date: |by, d| movaliren_description_format_date(&*by.form, d.year, d.month, d.day);
}

/// Writes the text of the value to the start of the buffer, and returns it.
#[inline]
pub(crate) fn write<'a, V>(
    format: &(impl Format<V> + ?Sized),
    value: &V,
    buffer: &'a mut [u8],
) -> Result<&'a str, Error> {
    // SAFETY: pointer and length are the buffer's.
    let answer = unsafe { format.call(value, buffer.as_mut_ptr(), buffer.len()) };
    let count = usize::try_from(answer).map_err(|_| error_of(answer))?;
    let text = &buffer[..count];
    debug_assert!(str::from_utf8(text).is_ok());
    // SAFETY: `Call` promises that these bytes are UTF-8.
    Ok(unsafe { str::from_utf8_unchecked(text) })
}

// ---- descriptions

/// The syntax of a description.
#[derive(Clone, Copy)]
pub(crate) enum Syntax {
    Brackets,
    Strftime,
}

/// Kinds of items: a byte of the description's text, and so many of them.
const BYTE: u32 = 254;
const TEXT: u32 = 255;

/// The description of the text, or why it is none.
pub(crate) fn parse(text: &str, syntax: Syntax) -> Result<Box<sys::Description>, ParseError> {
    let function = match syntax {
        Syntax::Brackets => sys::movaliren_description_parse,
        Syntax::Strftime => sys::movaliren_description_parse_strftime,
    };
    let mut form = Box::new(sys::Description {
        unused: 0,
        texts_len: 0,
        kinds: 0,
        way: 0,
        items: [Item::default(); 64],
        texts: [0; 512],
    });
    let mut fault = ParseError::default();
    // SAFETY: pointer and length are the text's, and both structs have the header's layout.
    let answer = unsafe { function(&mut *form, text.as_ptr(), text.len(), &mut fault) };
    if answer != 0 {
        return Err(fault);
    }
    assert!(
        form.items.iter().all(|item| is_whole(item, text)),
        "a literal is cut between characters"
    );
    Ok(form)
}

/// Whether the item writes whole characters.
fn is_whole(item: &Item, text: &str) -> bool {
    match item.kind {
        TEXT => text.get(item.start..item.start + item.len).is_some(),
        BYTE => item.byte.is_ascii(),
        _ => true,
    }
}

/// The sum of the most bytes of the items, up to `isize::MAX`.
pub(crate) fn max_length(form: &sys::Description) -> usize {
    // SAFETY: the struct has the header's layout.
    let answer = unsafe { sys::movaliren_description_max_length(form) };
    // The items of a description are valid.
    usize::try_from(answer).unwrap_or(0)
}

// ---- reading

/// What a text is read by. Only this crate can name it.
#[derive(Clone, Copy)]
pub enum Texts<'a> {
    Rfc3339,
    Rfc3339Lenient,
    Rfc2822,
    Rfc2822Lenient,
    Iso8601(&'a Iso8601),
    Description(&'a Description),
}

/// A moment that a text is read into, as by [`Rfc3339::read`]. This trait is sealed.
pub trait Read: Default {
    #[doc(hidden)]
    fn read_by(texts: Texts<'_>, text: &[u8]) -> Result<Self, Unread>;
}

macro_rules! reads {
    ($moment:ty: $rfc3339:ident, $rfc3339_lenient:ident, $rfc2822:ident, $rfc2822_lenient:ident, $iso8601:ident, $described:ident) => {
        impl Read for $moment {
            fn read_by(texts: Texts<'_>, text: &[u8]) -> Result<Self, Unread> {
                let (mut moment, mut fault) = (Self::default(), ReadError::default());
                let (at, len, m, f) = (text.as_ptr(), text.len(), &mut moment, &mut fault);
                // SAFETY: a pointer to a slice comes with its length, and the structs have the header's layout.
                let answer = unsafe {
                    match texts {
                        Texts::Rfc3339 => sys::$rfc3339(at, len, m, f),
                        Texts::Rfc3339Lenient => sys::$rfc3339_lenient(at, len, m, f),
                        Texts::Rfc2822 => sys::$rfc2822(at, len, m, f),
                        Texts::Rfc2822Lenient => sys::$rfc2822_lenient(at, len, m, f),
                        Texts::Iso8601(by) => sys::$iso8601(&by.config, at, len, m, f),
                        Texts::Description(by) => sys::$described(&*by.form, at, len, m, f),
                    }
                };
                match answer {
                    0 => Ok(moment),
                    number => Err(unread(number, fault)),
                }
            }
        }
    };
}

reads!(Moment: movaliren_read_rfc3339, movaliren_read_rfc3339_lenient, movaliren_read_rfc2822,
    movaliren_read_rfc2822_lenient, movaliren_read_iso8601_with, movaliren_description_read);
reads!(UtcMoment: movaliren_read_rfc3339_utc, movaliren_read_rfc3339_lenient_utc, movaliren_read_rfc2822_utc,
    movaliren_read_rfc2822_lenient_utc, movaliren_read_iso8601_with_utc, movaliren_description_read_utc);

fn unread(number: isize, fault: ReadError) -> Unread {
    match error_of(number) {
        Error::NotRead => Unread::Text(NotRead {
            at: fault.at,
            fault,
        }),
        error => Unread::Description(error),
    }
}

// ---- words and the version

/// The words that a function of the library writes to this room, which is large enough.
fn words(answer: isize, room: &[u8]) -> &str {
    let count = usize::try_from(answer).unwrap_or(0);
    str::from_utf8(&room[..count]).unwrap_or("")
}

pub(crate) fn words_of_error(error: Error, room: &mut [u8; 200]) -> &str {
    // SAFETY: pointer and length are the array's.
    let answer =
        unsafe { sys::movaliren_strerror_r(error as isize, room.as_mut_ptr(), room.len()) };
    words(answer, room)
}

pub(crate) fn words_of_read_error<'a>(error: &ReadError, room: &'a mut [u8; 128]) -> &'a str {
    // SAFETY: pointer and length are the array's, and the struct has the header's layout.
    let answer = unsafe { sys::movaliren_read_strerror_r(error, room.as_mut_ptr(), room.len()) };
    words(answer, room)
}

pub(crate) fn words_of_parse_error<'a>(error: &ParseError, room: &'a mut [u8; 128]) -> &'a str {
    // SAFETY: pointer and length are the array's, and the struct has the header's layout.
    let answer = unsafe { sys::movaliren_parse_strerror_r(error, room.as_mut_ptr(), room.len()) };
    words(answer, room)
}

/// Returns the version of the library that the program runs with: 10,000 for its first part, 100 for the second,
/// and the third.
///
/// ```
/// assert_eq!(movaliren::library_version(), 100);
/// ```
#[must_use]
pub fn library_version() -> u32 {
    // SAFETY: the function reads nothing.
    unsafe { sys::movaliren_version() }
}
