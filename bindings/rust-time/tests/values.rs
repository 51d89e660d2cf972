//! Texts and parts of 200,000 random values beside those of `time` and of `chrono`.
use chrono::{DateTime, FixedOffset, NaiveDate, NaiveDateTime, SecondsFormat, Utc};
use movaliren::{
    Date, Description, Error, Format, Iso8601, Moment, Rfc2822, Rfc3339, Stamp, TimePrecision,
    UtcMoment,
};
use movaliren_time::{ToDate, ToMoment, ToUtcMoment};
use std::fmt::Debug;
use time::format_description::well_known;
use time::OffsetDateTime;

const VALUES: usize = 200_000;
const MILLISECONDS: Iso8601 = Iso8601::new().time_precision(TimePrecision::Second, 3);

/// Random numbers, by xorshift.
struct Numbers(u64);

impl Numbers {
    fn below(&mut self, end: u64) -> u64 {
        self.0 ^= self.0 << 13;
        self.0 ^= self.0 >> 7;
        self.0 ^= self.0 << 17;
        self.0 % end
    }
}

/// Seconds of the years 1970 to 9999, a nanosecond, and an offset of whole minutes.
fn values() -> impl Iterator<Item = (i64, u32, i32)> {
    let mut numbers = Numbers(88_172_645_463_325_252);
    (0..VALUES).map(move |_| {
        let seconds = numbers.below(253_402_300_800) as i64;
        let nanosecond = match numbers.below(4) {
            0 => 0,
            1 => numbers.below(1_000) * 1_000_000,
            _ => numbers.below(1_000_000_000),
        };
        let minutes = numbers.below(2_879) as i32 - 1_439;
        (seconds, nanosecond as u32, minutes * 60)
    })
}

/// Seconds of the years 0 to 9999, a nanosecond, and an offset of any seconds below 24 hours. The local year may be
/// another one.
fn values_of_all_years() -> impl Iterator<Item = (i64, u32, i32)> {
    let mut numbers = Numbers(362_436_069);
    (0..VALUES).map(move |_| {
        let seconds = numbers.below(315_569_520_000) as i64 - 62_167_219_200;
        let offset = numbers.below(172_799) as i32 - 86_399;
        (seconds, numbers.below(1_000_000_000) as u32, offset)
    })
}

fn time_of((seconds, nanosecond, offset): (i64, u32, i32)) -> Option<OffsetDateTime> {
    let utc = OffsetDateTime::from_unix_timestamp(seconds).unwrap();
    let utc = utc.replace_nanosecond(nanosecond).unwrap();
    let local = utc.to_offset(time::UtcOffset::from_whole_seconds(offset).unwrap());
    (0..10_000).contains(&local.year()).then_some(local)
}

fn chrono_of((seconds, nanosecond, offset): (i64, u32, i32)) -> DateTime<FixedOffset> {
    let utc = NaiveDateTime::from_timestamp_opt(seconds, nanosecond).unwrap();
    DateTime::from_utc(utc, FixedOffset::east_opt(offset).unwrap())
}

fn assert_same(ours: Result<String, Error>, theirs: Result<String, impl Debug>) {
    assert_eq!(ours.unwrap(), theirs.unwrap());
}

#[test]
fn well_known_texts_are_those_of_time() {
    for time in values().filter_map(time_of) {
        let moment = time.to_moment();
        assert_same(Rfc3339.format(&moment), time.format(&well_known::Rfc3339));
        assert_same(Rfc2822.format(&moment), time.format(&well_known::Rfc2822));
    }
}

#[test]
fn descriptions_are_those_of_time() {
    let theirs = time::macros::format_description!(
        "[weekday], [day] [month repr:long], [hour]:[minute]:[second]"
    );
    let ours = "[weekday], [day] [month repr:long], [hour]:[minute]:[second]";
    let ours = Description::parse(ours).unwrap();
    let date = Description::parse("[year]-[ordinal]").unwrap();
    let date_theirs = time::macros::format_description!("[year]-[ordinal]");
    for time in values().filter_map(time_of) {
        assert_same(ours.format(&time.to_moment()), time.format(theirs));
        assert_same(
            date.format(&time.date().to_date()),
            time.format(date_theirs),
        );
    }
}

/// Descriptions in brackets that version 1 of the syntax, which `time` 0.3.9 reads, has too.
const BRACKETS: [&str; 10] = [
    "[weekday], [day padding:none] [month repr:long] [year]",
    "[weekday repr:short] [month repr:short] [day padding:space] [hour repr:12]:[minute] [period case:lower]",
    "[year base:iso_week]-W[week_number]-[weekday repr:monday]",
    "[year repr:last_two]/[ordinal]/[week_number repr:sunday]/[week_number repr:monday padding:none]",
    "[weekday repr:sunday one_indexed:false] [weekday repr:monday one_indexed:true]",
    "[hour padding:none]:[minute padding:space]:[second].[subsecond]",
    "[subsecond digits:1] [subsecond digits:4] [subsecond digits:9]",
    "[offset_hour sign:mandatory]:[offset_minute]",
    "[year sign:mandatory padding:space]-[month padding:none]-[ day ]",
    " \u{fc} [hour repr:24 padding:space] \u{65e5}",
];

#[test]
fn descriptions_in_brackets_are_those_of_time() {
    for (index, text) in BRACKETS.iter().enumerate() {
        let theirs = time::format_description::parse(text).unwrap();
        let ours = Description::parse(text).unwrap();
        let times = values().skip(index).step_by(BRACKETS.len());
        for time in times.filter_map(time_of) {
            assert_same(ours.format(&time.to_moment()), time.format(&theirs));
        }
    }
}

#[test]
fn texts_of_seconds_are_those_of_time() {
    for value in values() {
        let time = OffsetDateTime::from_unix_timestamp(value.0).unwrap();
        let time = time.replace_nanosecond(value.1).unwrap();
        let moment = time.to_utc_moment();
        assert_eq!(moment, UtcMoment::new(value.0, value.1));
        assert_same(Rfc3339.format(&moment), time.format(&well_known::Rfc3339));
        assert_same(Rfc2822.format(&moment), time.format(&well_known::Rfc2822));
    }
}

#[test]
fn texts_of_seconds_are_those_of_chrono() {
    for value in values() {
        let chrono = chrono_of(value);
        let (utc, moment) = (chrono.with_timezone(&Utc), chrono.to_utc_moment());
        let theirs = utc.to_rfc3339_opts(SecondsFormat::Nanos, true);
        assert_eq!(Stamp.format(&moment).unwrap(), theirs);
        let theirs = utc.to_rfc3339_opts(SecondsFormat::Millis, true);
        assert_eq!(MILLISECONDS.format(&moment).unwrap(), theirs);
    }
}

#[test]
fn texts_with_an_offset_are_those_of_time() {
    for value in values() {
        if let Some(time) = time_of(value) {
            let local = time.to_utc_moment().local(value.2.into());
            assert_same(Rfc3339.format(&local), time.format(&well_known::Rfc3339));
            assert_same(Rfc2822.format(&local), time.format(&well_known::Rfc2822));
        }
    }
}

#[test]
fn local_texts_are_those_of_chrono() {
    for chrono in values().map(chrono_of) {
        if chrono::Datelike::year(&chrono) > 9_999 {
            continue;
        }
        let theirs = chrono.to_rfc3339_opts(SecondsFormat::Millis, true);
        assert_eq!(MILLISECONDS.format(&chrono.to_moment()).unwrap(), theirs);
    }
}

#[test]
fn dates_are_those_of_chrono() {
    let description = Description::parse_strftime("%G-W%V-%u").unwrap();
    for chrono in values().map(chrono_of) {
        let date = chrono.naive_utc().date();
        let theirs = date.format("%G-W%V-%u").to_string();
        assert_eq!(description.format(&date.to_date()).unwrap(), theirs);
    }
}

#[test]
fn refuses_a_leap_second_of_chrono() {
    let utc = NaiveDateTime::from_timestamp_opt(1_483_228_799, 1_500_000_000).unwrap();
    let leap: DateTime<Utc> = DateTime::from_utc(utc, Utc);
    assert_eq!(Rfc3339.format(&leap.to_moment()), Err(Error::Nanosecond));
    assert_eq!(Stamp.format(&leap.to_utc_moment()), Err(Error::Nanosecond));
}

#[test]
fn parts_before_1970_and_offsets_with_seconds_are_those_of_time() {
    let theirs = time::macros::format_description!(
        "[offset_hour sign:mandatory]:[offset_minute]:[offset_second]"
    );
    let ours = "[offset_hour sign:mandatory]:[offset_minute]:[offset_second]";
    let ours = Description::parse(ours).unwrap();
    for time in values_of_all_years().filter_map(time_of) {
        let moment = time.to_moment();
        let parts = (moment.year(), moment.month(), moment.day());
        assert_eq!(parts, (time.year(), time.month().into(), time.day()));
        let parts = (moment.hour(), moment.minute(), moment.second());
        assert_eq!(parts, (time.hour(), time.minute(), time.second()));
        assert_eq!(moment.nanosecond(), time.nanosecond());
        assert_same(ours.format(&moment), time.format(theirs));
        let utc = UtcMoment::new(time.unix_timestamp(), time.nanosecond());
        assert_eq!(time.to_utc_moment(), utc);
    }
}

#[test]
fn parts_before_1970_and_offsets_with_seconds_are_those_of_chrono() {
    let ours = "[year]-[month]-[day] [hour]:[minute]:[second].[subsecond digits:9]\
        [offset_hour sign:mandatory]:[offset_minute]:[offset_second]";
    let ours = Description::parse(ours).unwrap();
    for value in values_of_all_years() {
        let chrono = chrono_of(value);
        let theirs = chrono.format("%Y-%m-%d %H:%M:%S%.9f%::z").to_string();
        assert_eq!(ours.format(&chrono.to_moment()).unwrap(), theirs);
        assert_eq!(chrono.to_utc_moment(), UtcMoment::new(value.0, value.1));
    }
}

/// The date and time in UTC of 200,000 moments, and each first second of a year.
#[test]
fn the_parts_of_a_moment_in_utc_are_those_of_chrono() {
    let first = |year| {
        let date = NaiveDate::from_ymd_opt(year, 1, 1)?.and_hms_opt(0, 0, 0)?;
        Some((date.timestamp(), 0, 0))
    };
    let values = values_of_all_years().chain((0..10_000).filter_map(first));
    for (seconds, nanosecond, _) in values {
        let chrono = chrono_of((seconds, nanosecond, 0));
        let moment = Moment::try_from(UtcMoment::new(seconds, nanosecond));
        assert_eq!(moment, Ok(chrono.to_moment()));
    }
}

#[test]
fn dates_before_1970_are_those_of_time_and_chrono() {
    for year in -9_999..10_000 {
        let (month, day) = (1 + (year & 7) as u8, 1 + (year & 15) as u8);
        let date = Date { year, month, day };
        let time = time::Date::from_calendar_date(year, month.try_into().unwrap(), day);
        assert_eq!(time.unwrap().to_date(), date);
        let chrono = NaiveDate::from_ymd_opt(year, month.into(), day.into()).unwrap();
        assert_eq!(chrono.to_date(), date);
        let midnight = Moment::new(year, month, day);
        assert_eq!(time.unwrap().midnight().assume_utc().to_moment(), midnight);
        let chrono: DateTime<Utc> = DateTime::from_utc(chrono.and_hms_opt(0, 0, 0).unwrap(), Utc);
        assert_eq!(chrono.to_moment(), midnight);
    }
}

/// The parts of the offset have one sign.
#[test]
fn an_offset_of_less_than_an_hour_keeps_its_sign() {
    for (offset, parts) in [
        (-30 * 60, (0, -30, 0)),
        (-1, (0, 0, -1)),
        (-(5 * 3_600 + 30 * 60), (-5, -30, 0)),
        (86_399, (23, 59, 59)),
    ] {
        let value = (0, 0, offset);
        assert_eq!(chrono_of(value).to_moment().offset_hms(), parts);
        assert_eq!(time_of(value).unwrap().to_moment().offset_hms(), parts);
    }
}

#[test]
fn refuses_a_second_of_the_offset_by_rfc_3339() {
    let moment = chrono_of((-1, 0, -1)).to_moment();
    let error = Err(Error::FormatOffsetSecond);
    assert_eq!(Rfc3339.format(&moment), error);
    assert_eq!(
        Rfc3339.format(&time_of((-1, 0, -1)).unwrap().to_moment()),
        error
    );
}
