//! Random moments in a time zone with half an hour and summer time, logged by `tracing` in local time. The clock
//! of this program is set by the test.
mod lines;

use chrono::{Local, Offset, TimeZone};
use movaliren::{Iso8601, TimePrecision, UtcMoment};
use movaliren_time::LocalTimer;
use std::sync::atomic::{AtomicI64, Ordering};
use std::sync::Mutex;
use tracing_subscriber::fmt::time::FormatTime;

const LINE: Iso8601 = Iso8601::new().time_precision(TimePrecision::Second, 3);

static SECONDS: AtomicI64 = AtomicI64::new(0);
static NANOSECONDS: AtomicI64 = AtomicI64::new(0);

/// Tests run side by side, and one of them at a time sets the clock.
static SETTER: Mutex<()> = Mutex::new(());

/// Stands in place of the function of the C library, by which the standard library reads the clock.
///
/// # Safety
///
/// `time` points to a `struct timespec`.
#[no_mangle]
pub unsafe extern "C" fn clock_gettime(_clock: i32, time: *mut [i64; 2]) -> i32 {
    *time = [
        SECONDS.load(Ordering::SeqCst),
        NANOSECONDS.load(Ordering::SeqCst),
    ];
    0
}

fn offset(moment: UtcMoment) -> i64 {
    let local = Local.timestamp_opt(moment.seconds, 0).single();
    local.map_or(0, |local| local.offset().fix().local_minus_utc().into())
}

/// What is logged at 10,000 random moments of the years 1970 to 2099, and what `chrono` writes of them.
fn logged_and_wanted(timer: impl FormatTime + Send + Sync + 'static) -> (String, String) {
    std::env::set_var("TZ", "America/St_Johns");
    let (mut wanted, mut random) = (String::new(), 20_261_127_u64);
    let logged = lines::logged_by(timer, || {
        for _ in 0..10_000 {
            random = random
                .wrapping_mul(6_364_136_223_846_793_005)
                .wrapping_add(1);
            let second = (random >> 16) as i64 % 4_102_444_800;
            let nanosecond = (random >> 20) as i64 % 1_000_000_000;
            SECONDS.store(second, Ordering::SeqCst);
            NANOSECONDS.store(nanosecond, Ordering::SeqCst);
            tracing::info!("opened");
            let local = Local.timestamp_opt(second, nanosecond as u32).unwrap();
            wanted += &local.format("%Y-%m-%dT%H:%M:%S%.3f%:z").to_string();
            wanted += "  INFO random_moments: opened\n";
        }
    });
    (logged, wanted)
}

/// What is logged at this second.
fn logged_at(second: i64, timer: impl FormatTime + Send + Sync + 'static) -> String {
    lines::logged_by(timer, || {
        SECONDS.store(second, Ordering::SeqCst);
        NANOSECONDS.store(0, Ordering::SeqCst);
        tracing::info!("opened");
    })
}

/// As many minutes as there are seconds of the minute.
fn second_as_minutes(moment: UtcMoment) -> i64 {
    moment.seconds % 60 * 60
}

/// The offset is another one at each second, as at a change of clocks.
#[test]
fn a_timer_asks_for_the_offset_of_each_moment() {
    let _setter = SETTER.lock();
    for (second, wanted) in [
        (1_700_000_000, "2023-11-14T22:33:20.000+00:20"),
        (1_700_000_001, "2023-11-14T22:34:21.000+00:21"),
    ] {
        let line = format!("{wanted}  INFO random_moments: opened\n");
        let logged = logged_at(second, LocalTimer::new(LINE, second_as_minutes));
        assert_eq!(logged, line);
    }
}

#[test]
fn a_timer_logs_what_chrono_writes() {
    let _setter = SETTER.lock();
    let (logged, wanted) = logged_and_wanted(LocalTimer::new(LINE, offset));
    assert_eq!(logged, wanted);
}
