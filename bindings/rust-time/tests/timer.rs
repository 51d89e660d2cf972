//! The lines that `tracing-subscriber` writes with a timer.
mod lines;

use chrono::{DateTime, Duration, Utc};
use movaliren::{Description, Error, Format, Iso8601, Rfc3339, TimePrecision, UtcMoment};
use movaliren_time::{LocalTimer, Timer};
use std::sync::Arc;
use tracing_subscriber::fmt::time::FormatTime;

const MILLISECONDS: Iso8601 = Iso8601::new().time_precision(TimePrecision::Second, 3);

fn strftime(text: &str) -> Description {
    Description::parse_strftime(text).unwrap()
}

/// What an event is written as, by this format of its time.
fn logged(format: impl Format<UtcMoment> + Send + Sync + 'static) -> String {
    logged_by(Timer::new(format))
}

fn logged_by(timer: impl FormatTime + Send + Sync + 'static) -> String {
    lines::logged_by(timer, || tracing::info!("opened"))
}

#[test]
fn a_time_stands_before_the_level() {
    let line = logged(strftime("at noon"));
    assert_eq!(line, "at noon  INFO timer: opened\n");
}

#[test]
fn a_local_time_has_its_offset() {
    let line = logged_by(LocalTimer::new(strftime("%:z"), |_| -12_600));
    assert_eq!(line, "-03:30  INFO timer: opened\n");
}

/// The time before the level is that of the clock of `chrono`, cut to its decimals.
fn is_that_of_the_clock(timer: impl FormatTime + Send + Sync + 'static, decimals: u32) {
    let unit = Duration::nanoseconds(10_i64.pow(9 - decimals));
    let before = Utc::now();
    let line = logged_by(timer);
    let after = Utc::now();
    let (time, _) = line.split_once("  INFO").unwrap();
    let time = DateTime::parse_from_rfc3339(time).unwrap();
    assert!(before - unit < time && time <= after, "{time}");
}

#[test]
fn a_time_is_that_of_the_clock() {
    for _ in 0..100 {
        is_that_of_the_clock(Timer::new(Rfc3339), 9);
        is_that_of_the_clock(LocalTimer::new(Rfc3339, |_| -12_600), 9);
        is_that_of_the_clock(LocalTimer::new(MILLISECONDS, |_| 3_600), 3);
    }
}

#[test]
fn the_format_of_a_timer_is_chosen_when_the_program_runs() {
    let format: Arc<dyn Format<UtcMoment> + Send + Sync> = Arc::new(strftime("at noon"));
    assert_eq!(logged(format), "at noon  INFO timer: opened\n");
}

/// No text of RFC 3339 has an offset of a second.
#[test]
fn a_time_that_has_no_text_is_its_reason() {
    let line = logged_by(LocalTimer::new(Rfc3339, |_| 1));
    let reason = Error::FormatOffsetSecond;
    assert_eq!(line, format!("<{reason}>  INFO timer: opened\n"));
}
