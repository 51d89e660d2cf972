//! The lines of `log`.
use log::Record;
use std::fmt::Display;
use std::io::{self, Write};

/// Returns a function that writes an entry of `log` as a line after its time, as
/// `[2026-11-22T09:55:06.120Z INFO  server] opened`.
///
/// It is for `Builder::format` of `env_logger`, which keeps its filter. The line has no colours, and the lines
/// of an entry that has several are not indented. Each timer of this crate is a time.
///
/// ```
/// use movaliren::Rfc3339;
/// use movaliren_time::{log_line, Timer};
///
/// let time = Timer::new(Rfc3339);
/// env_logger::Builder::from_default_env().format(log_line(time)).init();
/// log::info!("opened");
/// ```
pub fn log_line<T, W>(time: T) -> impl Fn(&mut W, &Record<'_>) -> io::Result<()> + Send + Sync
where
    T: Display + Send + Sync,
    W: Write,
{
    move |output, record| {
        let (level, target) = (record.level(), record.target());
        writeln!(output, "[{time} {level:<5} {target}] {}", record.args())
    }
}
