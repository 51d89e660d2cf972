//! The timers.
use movaliren::{Format, LocalMoment, UtcMoment};
use std::fmt::{self, Display};

/// A timer that writes the system's clock in UTC by a format.
///
/// `{}` shows the time of now, also of the other timer. A time that the format refuses is shown as the reason in
/// angle brackets.
///
/// ```
/// use movaliren::Rfc3339;
/// use movaliren_time::Timer;
///
/// println!("{} opened", Timer::new(Rfc3339));
/// tracing_subscriber::fmt().with_timer(Timer::new(Rfc3339)).init();
/// tracing::info!("opened");
/// ```
#[derive(Clone, Copy, Debug, Default)]
pub struct Timer<F> {
    format: F,
}

impl<F: Format<UtcMoment>> Timer<F> {
    /// Returns a timer by this format.
    pub const fn new(format: F) -> Self {
        Timer { format }
    }
}

impl<F: Format<UtcMoment>> Display for Timer<F> {
    fn fmt(&self, f: &mut fmt::Formatter<'_>) -> fmt::Result {
        UtcMoment::now().display(&self.format).fmt(f)
    }
}

/// A timer that writes the system's clock in local time by a format.
///
/// A function gives the seconds by which the local time is ahead of UTC at a moment.
///
/// ```
/// use movaliren::{Iso8601, TimePrecision};
/// use movaliren_time::LocalTimer;
///
/// const LINE: Iso8601 = Iso8601::new().time_precision(TimePrecision::Second, 3);
/// tracing_subscriber::fmt().with_timer(LocalTimer::new(LINE, |_| 3_600)).init();
/// tracing::info!("opened");
/// ```
#[derive(Clone, Copy, Debug)]
pub struct LocalTimer<F, O> {
    format: F,
    offset: O,
}

impl<F: Format<LocalMoment>, O: Fn(UtcMoment) -> i64> LocalTimer<F, O> {
    /// Returns a timer by this format and this function of the offset.
    pub const fn new(format: F, offset: O) -> Self {
        LocalTimer { format, offset }
    }
}

impl<F: Format<LocalMoment>, O: Fn(UtcMoment) -> i64> Display for LocalTimer<F, O> {
    fn fmt(&self, f: &mut fmt::Formatter<'_>) -> fmt::Result {
        let now = UtcMoment::now();
        now.local((self.offset)(now)).display(&self.format).fmt(f)
    }
}

#[cfg(feature = "tracing")]
mod of_tracing {
    use super::*;
    use tracing_subscriber::fmt::format::Writer;
    use tracing_subscriber::fmt::time::FormatTime;

    impl<F: Format<UtcMoment>> FormatTime for Timer<F> {
        fn format_time(&self, writer: &mut Writer<'_>) -> fmt::Result {
            write!(writer, "{self}")
        }
    }

    impl<F: Format<LocalMoment>, O: Fn(UtcMoment) -> i64> FormatTime for LocalTimer<F, O> {
        fn format_time(&self, writer: &mut Writer<'_>) -> fmt::Result {
            write!(writer, "{self}")
        }
    }
}
