//! Values of the crates `time` and `chrono` as values of `movaliren`, timers for `tracing-subscriber`, and lines
//! for `log` and `env_logger`.
//!
//! Each of the four is a feature (`time`, `chrono`, `tracing`, `log`), and all are on by default. The
//! conversions are traits, since neither side's types belong to this crate.
//!
//! ```
//! use movaliren::{Format, Rfc3339};
//! use movaliren_time::ToMoment;
//! use time::macros::datetime;
//!
//! let moment = datetime!(2026-11-22 09:55:06.12 -06:00).to_moment();
//! assert_eq!(Rfc3339.format(&moment)?, "2026-11-22T09:55:06.12-06:00");
//! # Ok::<(), movaliren::Error>(())
//! ```
#![forbid(unsafe_code)]
#![warn(
    missing_docs,
    clippy::missing_errors_doc,
    clippy::missing_panics_doc,
    clippy::must_use_candidate
)]

use movaliren::{Date, Moment, UtcMoment};

#[cfg(feature = "log")]
mod logger;
#[cfg(feature = "chrono")]
mod of_chrono;
#[cfg(feature = "time")]
mod of_time;
mod timer;

#[cfg(feature = "log")]
pub use logger::log_line;
pub use timer::{LocalTimer, Timer};

/// A value with a local date, a local time and an offset from UTC.
pub trait ToMoment {
    /// Returns the local date and time, and the offset.
    fn to_moment(&self) -> Moment;
}

/// A value that has a moment in UTC.
pub trait ToUtcMoment {
    /// Returns the moment in UTC.
    fn to_utc_moment(&self) -> UtcMoment;
}

/// A value that is a date.
pub trait ToDate {
    /// Returns the date.
    fn to_date(&self) -> Date;
}

#[cfg(all(doctest, feature = "time", feature = "tracing", feature = "log"))]
#[doc = include_str!("../README.md")]
struct Readme;
