//! Dates and times as text, by Movaliren's proved formatter: RFC 3339, RFC 2822, ISO 8601, stamps that
//! sort, and descriptions; and texts, read back.
//!
//! ```
//! use movaliren::{Format, Moment, Rfc3339, UtcMoment};
//!
//! println!("{} opened", UtcMoment::now().display(Rfc3339));
//!
//! let moment = Moment::new(1997, 11, 12).at(9, 55, 6, 120_000_000).offset(-6, 0, 0);
//! assert_eq!(Rfc3339.format(&moment)?, "1997-11-12T09:55:06.12-06:00");
//!
//! let mut buffer = [0; 35];
//! assert_eq!(Rfc3339.format_into(&mut buffer, &moment)?, "1997-11-12T09:55:06.12-06:00");
//!
//! let read: Moment = Rfc3339.read("1997-11-12T09:55:06.12-06:00")?;
//! assert_eq!(read, moment);
//! # Ok::<(), Box<dyn std::error::Error>>(())
//! ```
//!
//! The library behind this crate is proved: each text is the one of its definition, and each error is
//! the definition's. This crate passes it slices and names its errors, and is tested.
//!
//! The crate has no dependencies. `unsafe` is in the module that calls the library, which is built for Linux
//! on `x86-64-v2`.
#![no_std]
#![deny(
    unsafe_code,
    unsafe_op_in_unsafe_fn,
    clippy::undocumented_unsafe_blocks
)]
#![warn(
    missing_docs,
    clippy::missing_errors_doc,
    clippy::missing_panics_doc,
    clippy::must_use_candidate
)]

extern crate alloc;
#[cfg(feature = "std")]
extern crate std;

#[allow(unsafe_code)]
mod call;
mod description;
mod error;
mod format;
mod formats;
mod iso8601;
mod moment;
mod read;
#[rustfmt::skip]
mod sys;

pub use call::{library_version, Read};
pub use description::{Date, Description, InvalidDescription};
pub use format::{Format, Formatted};
pub use formats::{ImfFixdate, Rfc2822, Rfc3339, Stamp};
pub use iso8601::{DateKind, DecimalSign, Iso8601, OffsetPrecision, Parts, TimePrecision};
pub use moment::{LocalMoment, Moment, UtcMoment};
pub use read::{NotRead, Unread};
pub use sys::Error;

#[cfg(doctest)]
#[doc = include_str!("../README.md")]
struct Readme;
