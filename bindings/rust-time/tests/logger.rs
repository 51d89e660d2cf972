//! The lines of `log`, by `env_logger`.
#[allow(dead_code)]
mod lines;

use chrono::{DateTime, Duration, Utc};
use lines::Lines;
use log::{Level, LevelFilter, Log, Record};
use movaliren::{Error, Rfc3339};
use movaliren_time::{log_line, LocalTimer, Timer};
use std::fmt::Display;

/// Gives the logger an entry of this level.
fn log_entry(logger: &impl Log, level: Level) {
    let words = format_args!("opened {}", 7);
    let record = Record::builder()
        .level(level)
        .target("server")
        .args(words)
        .build();
    logger.log(&record);
}

/// The line of an entry.
fn logged_by(time: impl Display + Send + Sync + 'static, level: Level) -> String {
    let lines = Lines::default();
    let logger = env_logger::Builder::new()
        .filter_level(LevelFilter::Info)
        .format(log_line(time))
        .target(env_logger::Target::Pipe(Box::new(lines.clone())))
        .build();
    log_entry(&logger, level);
    lines.text()
}

#[test]
fn an_entry_is_a_line_after_its_time() {
    assert_eq!(
        logged_by("at noon", Level::Info),
        "[at noon INFO  server] opened 7\n"
    );
    assert_eq!(
        logged_by("at noon", Level::Error),
        "[at noon ERROR server] opened 7\n"
    );
}

#[test]
fn env_logger_keeps_its_filter() {
    assert_eq!(logged_by("at noon", Level::Debug), "");
}

/// The time of the line is that of the clock of `chrono`, cut to its decimals.
fn is_that_of_the_clock(time: impl Display + Send + Sync + 'static, decimals: u32) {
    let unit = Duration::nanoseconds(10_i64.pow(9 - decimals));
    let before = Utc::now();
    let line = logged_by(time, Level::Info);
    let after = Utc::now();
    let (time, _) = line[1..].split_once(' ').unwrap();
    let time = DateTime::parse_from_rfc3339(time).unwrap();
    assert!(before - unit < time && time <= after, "{time}");
}

#[test]
fn a_timer_is_a_time() {
    for _ in 0..100 {
        is_that_of_the_clock(Timer::new(Rfc3339), 9);
        is_that_of_the_clock(LocalTimer::new(Rfc3339, |_| -12_600), 9);
    }
}

/// No text of RFC 3339 has an offset of a second.
#[test]
fn a_time_that_has_no_text_is_its_reason() {
    let line = logged_by(LocalTimer::new(Rfc3339, |_| 1), Level::Info);
    let reason = Error::FormatOffsetSecond;
    assert_eq!(line, format!("[<{reason}> INFO  server] opened 7\n"));
}
