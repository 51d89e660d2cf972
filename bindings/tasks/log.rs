//! A line of a log with the time of now, in UTC with milliseconds.
use movaliren::{Iso8601, TimePrecision, UtcMoment};

const LINE: Iso8601 = Iso8601::new().time_precision(TimePrecision::Second, 3);

fn main() {
    println!("{} opened", UtcMoment::now().display(LINE));
}
