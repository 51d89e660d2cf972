//! The lines of `docs/RUST.md` in Rust, each with the text that stands beside it.
use movaliren::{
    Date, DateKind, Description, Format, Iso8601, Moment, Parts, Rfc2822, Rfc3339, TimePrecision,
    UtcMoment,
};
use std::time::{Duration, UNIX_EPOCH};

/// Sunday, 22 November 2026, at 9:55:06.12, six hours behind UTC.
fn moment() -> Moment {
    Moment::new(2026, 11, 22)
        .at(9, 55, 6, 120_000_000)
        .offset(-6, 0, 0)
}

#[test]
fn formats_of_standards() {
    let moment = moment();
    let text = Rfc3339.format(&moment).unwrap();
    assert_eq!(text, "2026-11-22T09:55:06.12-06:00");
    let mut buffer = [0; 35];
    let text = Rfc3339.format_into(&mut buffer, &moment);
    assert_eq!(text, Ok("2026-11-22T09:55:06.12-06:00"));
    let text = Rfc2822.format(&moment).unwrap();
    assert_eq!(text, "Sun, 22 Nov 2026 09:55:06 -0600");
    let text = Iso8601::new().format(&moment).unwrap();
    assert_eq!(text, "2026-11-22T09:55:06.120000000-06:00");
    let milliseconds = Iso8601::new().time_precision(TimePrecision::Second, 3);
    let text = milliseconds.format(&moment).unwrap();
    assert_eq!(text, "2026-11-22T09:55:06.120-06:00");
    let week = Iso8601::new().parts(Parts::Date).date_kind(DateKind::Week);
    assert_eq!(week.format(&moment).unwrap(), "2026-W47-7");
}

#[test]
fn descriptions() {
    let moment = moment();
    let day = Description::parse("[day] [month repr:long]").unwrap();
    assert_eq!(day.format(&moment).unwrap(), "22 November");
    let date = Date {
        year: 2026,
        month: 11,
        day: 22,
    };
    assert_eq!(day.format(&date).unwrap(), "22 November");
    let long = Description::parse_strftime("%A, %-d %B").unwrap();
    assert_eq!(long.format(&date).unwrap(), "Sunday, 22 November");
}

#[test]
fn values() {
    let moment = UtcMoment::from(UNIX_EPOCH + Duration::new(1_795_362_906, 120_000_000));
    assert_eq!(Rfc3339.format(&moment).unwrap(), "2026-11-22T15:55:06.12Z");
    assert_eq!(moment, UtcMoment::new(1_795_362_906, 120_000_000));
    let text = moment.display(Rfc3339).to_string();
    assert_eq!(text, "2026-11-22T15:55:06.12Z");
    let read = Rfc3339.read::<Moment>("2026-11-22T09:55:06.12-06:00");
    assert_eq!(read, Ok(self::moment()));
    let server = Description::parse_strftime("%d/%b/%Y:%H:%M:%S %z").unwrap();
    let read = server.read::<UtcMoment>("22/Nov/2026:09:55:06 -0600");
    assert_eq!(read, Ok(UtcMoment::new(1_795_362_906, 0)));
    let read = Rfc2822.read_lenient::<UtcMoment>("Sun, 22 Nov 2026 09:55:06 -0600");
    assert_eq!(read, Ok(UtcMoment::new(1_795_362_906, 0)));
}
