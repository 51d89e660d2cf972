//! The parts of moments, and their order. A century of the calendar has 36,524 days, and one more if its first
//! year is a multiple of 400 (ISO 8601-1:2019, 4.2.1).
use movaliren::*;
use std::cmp::Ordering;

const FIRST_SECOND: i64 = -62_167_219_200; // 0000-01-01T00:00:00Z

#[test]
fn the_first_and_the_last_moment_of_each_century_have_their_parts() {
    let mut seconds = FIRST_SECOND;
    for year in (0..10_000).step_by(100) {
        let first = Moment::new(year, 1, 1);
        assert_eq!(Moment::try_from(UtcMoment::new(seconds, 0)), Ok(first));
        seconds += (36_524 + i64::from(year % 400 == 0)) * 86_400;
        let last = Moment::new(year + 99, 12, 31).at(23, 59, 59, 999_999_999);
        let moment = UtcMoment::new(seconds - 1, 999_999_999);
        assert_eq!(Moment::try_from(moment), Ok(last));
    }
    assert_eq!(seconds, 253_402_300_800);
}

/// The seconds are those of Python's `datetime`.
#[test]
fn a_moment_has_the_parts_of_its_seconds() {
    for (seconds, nanosecond, moment) in [
        (
            -11_670_953_104,
            123_456_789,
            Moment::new(1600, 2, 29).at(12, 34, 56, 123_456_789),
        ),
        (-14_182_940, 0, Moment::new(1969, 7, 20).at(20, 17, 40, 0)),
        (-1, 1, Moment::new(1969, 12, 31).at(23, 59, 59, 1)),
        (946_684_799, 0, Moment::new(1999, 12, 31).at(23, 59, 59, 0)),
    ] {
        let utc = UtcMoment::new(seconds, nanosecond);
        assert_eq!(Moment::try_from(utc), Ok(moment));
    }
}

#[test]
fn no_moment_of_another_year_has_parts() {
    for (moment, error) in [
        (UtcMoment::new(FIRST_SECOND - 1, 0), Error::FormatYear),
        (UtcMoment::new(253_402_300_800, 0), Error::FormatYear),
        (UtcMoment::new(i64::MIN, 0), Error::MomentSeconds),
        (UtcMoment::new(0, 1_000_000_000), Error::Nanosecond),
    ] {
        assert_eq!(Moment::try_from(moment), Err(error));
        assert_eq!(Stamp.format(&moment), Err(error));
    }
}

/// The moment of these parts in the order in which they are compared.
fn moment_of(parts: [i8; 10]) -> Moment {
    let [year, month, day, hour, minute, second, nanosecond, offset @ ..] = parts;
    let [month, day, hour, minute, second] = [month, day, hour, minute, second].map(|n| n as u8);
    Moment::new(year.into(), month, day)
        .at(hour, minute, second, nanosecond as u32)
        .offset(offset[0], offset[1], offset[2])
}

#[test]
fn the_first_part_that_differs_decides_the_order() {
    let (least, greatest) = (
        [-4, 1, 1, 0, 0, 0, 0, -23, -59, -59],
        [9, 12, 28, 23, 59, 59, 99, 23, 59, 59],
    );
    for part in 0..10 {
        // All parts before this one are the same, and all after it are in the other order.
        let (mut less, mut more) = (greatest, least);
        less[..=part].copy_from_slice(&[5; 10][..=part]);
        more[..=part].copy_from_slice(&[5; 10][..=part]);
        more[part] = 6;
        let (less, more) = (moment_of(less), moment_of(more));
        assert_eq!(less.cmp(&more), Ordering::Less, "part {part}");
        assert_eq!(more.partial_cmp(&less), Some(Ordering::Greater));
        assert_ne!(less, more);
        assert_eq!(less.cmp(&{ less }), Ordering::Equal);
    }
}

#[test]
fn moments_in_utc_are_in_the_order_of_time() {
    assert!(UtcMoment::new(-1, 999_999_999) < UtcMoment::new(0, 0));
    assert!(UtcMoment::new(0, 0) < UtcMoment::new(0, 1));
}

#[test]
fn a_moment_has_the_parts_that_were_set() {
    let moment = Moment::new(-44, 3, 15)
        .at(9, 55, 6, 120_000_000)
        .offset(-6, -7, -8);
    let parts = (moment.year(), moment.month(), moment.day());
    assert_eq!(parts, (-44, 3, 15));
    let parts = (moment.hour(), moment.minute(), moment.second());
    assert_eq!(parts, (9, 55, 6));
    assert_eq!(moment.nanosecond(), 120_000_000);
    assert_eq!(moment.offset_hms(), (-6, -7, -8));
}

#[test]
fn the_defaults_are_the_start_of_1970() {
    assert_eq!(
        Moment::try_from(UtcMoment::default()),
        Ok(Moment::default())
    );
    assert_eq!(UtcMoment::default(), UtcMoment::new(0, 0));
    assert_eq!(Moment::default(), Moment::new(1970, 1, 1));
}

#[test]
fn stamps_sort() {
    let stamps = [i64::from(i32::MIN), -2, -1, 0, 1, 253_402_300_799]
        .map(|seconds| Stamp.format(&UtcMoment::new(seconds, 0)).unwrap());
    assert!(stamps.windows(2).all(|pair| pair[0] < pair[1]));
}

#[test]
fn each_time_of_the_system_is_a_moment_and_back() {
    use std::time::{Duration, SystemTime, UNIX_EPOCH};
    let most = UNIX_EPOCH + Duration::new(i64::MAX as u64, 999_999_999);
    let least = UNIX_EPOCH - Duration::from_secs(i64::MAX as u64);
    let nanosecond = Duration::from_nanos(1);
    for (time, moment) in [
        (UNIX_EPOCH, UtcMoment::new(0, 0)),
        (UNIX_EPOCH - nanosecond, UtcMoment::new(-1, 999_999_999)),
        (UNIX_EPOCH - Duration::from_secs(2), UtcMoment::new(-2, 0)),
        (most, UtcMoment::new(i64::MAX, 999_999_999)),
        (least, UtcMoment::new(-i64::MAX, 0)),
        (least + nanosecond, UtcMoment::new(-i64::MAX, 1)),
    ] {
        assert_eq!(UtcMoment::from(time), moment);
        assert_eq!(SystemTime::try_from(moment), Ok(time));
    }
    for nanosecond in [1_000_000_000, u32::MAX] {
        let error = SystemTime::try_from(UtcMoment::new(0, nanosecond));
        assert_eq!(error, Err(Error::Nanosecond));
    }
}
