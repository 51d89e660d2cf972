//! Logs local time with milliseconds: the clock's, and that of each moment on the standard input, by its seconds since
//! 1970 and its nanosecond.
use chrono::{Local, Offset, TimeZone};
use movaliren::{Iso8601, TimePrecision, UtcMoment};

const LINE: Iso8601 = Iso8601::new().time_precision(TimePrecision::Second, 3);

fn log(moment: UtcMoment) {
    let local = Local.timestamp_opt(moment.seconds, 0).single();
    let offset = local.map_or(0, |local| local.offset().fix().local_minus_utc());
    println!("{} opened", moment.local(offset.into()).display(LINE));
}

fn main() {
    log(UtcMoment::now());
    for line in std::io::stdin().lines().map_while(Result::ok) {
        let (seconds, nanosecond) = line.split_once(' ').expect("two numbers");
        let number = "a number";
        log(UtcMoment::new(
            seconds.parse().expect(number),
            nanosecond.parse().expect(number),
        ));
    }
}
