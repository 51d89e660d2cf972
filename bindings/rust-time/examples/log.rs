//! Logs the clock with milliseconds, from eight threads.
use movaliren::{Iso8601, TimePrecision};
use movaliren_time::Timer;
use std::thread;

const MILLISECONDS: Iso8601 = Iso8601::new().time_precision(TimePrecision::Second, 3);

fn main() {
    tracing_subscriber::fmt()
        .with_timer(Timer::new(MILLISECONDS))
        .init();
    thread::scope(|scope| {
        for thread in 0..8 {
            scope.spawn(move || {
                for entry in 0..1_000 {
                    tracing::info!(thread, entry, "opened");
                }
            });
        }
    });
}
