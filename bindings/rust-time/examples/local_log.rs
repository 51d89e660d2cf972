//! Logs the clock in local time with milliseconds by `tracing`.
use chrono::{Local, Offset, TimeZone};
use movaliren::{Iso8601, TimePrecision, UtcMoment};
use movaliren_time::LocalTimer;

const LINE: Iso8601 = Iso8601::new().time_precision(TimePrecision::Second, 3);

fn offset(moment: UtcMoment) -> i64 {
    let local = Local.timestamp_opt(moment.seconds, 0).single();
    local.map_or(0, |local| local.offset().fix().local_minus_utc().into())
}

fn main() {
    let timer = LocalTimer::new(LINE, offset);
    tracing_subscriber::fmt().with_timer(timer).init();
    tracing::info!("opened");
}
