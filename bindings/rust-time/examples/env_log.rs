//! Logs the clock with milliseconds by `log` and `env_logger`, from eight threads.
use log::LevelFilter;
use movaliren::{Iso8601, TimePrecision};
use movaliren_time::{log_line, Timer};
use std::thread;

const MILLISECONDS: Iso8601 = Iso8601::new().time_precision(TimePrecision::Second, 3);

fn main() {
    env_logger::Builder::new()
        .filter_level(LevelFilter::Info)
        .format(log_line(Timer::new(MILLISECONDS)))
        .init();
    thread::scope(|scope| {
        for thread in 0..8 {
            scope.spawn(move || {
                for entry in 0..1_000 {
                    log::info!("opened thread={thread} entry={entry}");
                }
            });
        }
    });
}
