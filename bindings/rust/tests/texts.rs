//! What no proof of the library says: the order of arguments and the layout of structs, a buffer that is exact and one
//! that is a byte short, what an error leaves, the name of each reason, and the words of a text that is not read.
use movaliren::*;
use std::rc::Rc;
use std::sync::Arc;

const EXAMPLE: Moment = Moment::new(1997, 11, 12)
    .at(9, 55, 6, 120_000_000)
    .offset(-6, 0, 0);
const DATE: Date = Date {
    year: 1997,
    month: 11,
    day: 12,
};

fn strftime(text: &str) -> Description {
    Description::parse_strftime(text).unwrap()
}

/// The text by each way, also in a buffer that it fills, and the error of one that is a byte short.
fn assert_text<V: Copy>(format: &impl Format<V>, value: &V, text: &str) {
    assert_eq!(format.format(value).as_deref(), Ok(text));
    assert!(text.len() <= format.width());
    let mut room = vec![b'#'; text.len() + 1];
    let exact = &mut room[..text.len()];
    assert_eq!(format.format_into(exact, value), Ok(text));
    assert_eq!(room[text.len()], b'#');
    assert_eq!(format.format_into(&mut room, value), Ok(text));
    if let Some(short) = text.len().checked_sub(1) {
        let mut room = vec![b'#'; short];
        let answer = format.format_into(&mut room, value);
        assert_eq!(answer, Err(Error::BufferTooSmall));
        assert!(room.iter().all(|byte| *byte == b'#'));
    }
}

/// The error by each way, which leaves the buffer as it was.
fn assert_error<V>(format: &impl Format<V>, value: &V, error: Error) {
    assert_eq!(format.format(value), Err(error));
    let mut room = [b'#'; 300];
    assert_eq!(format.format_into(&mut room, value), Err(error));
    assert_eq!(room, [b'#'; 300]);
    assert_eq!(format.format_into(&mut [], value), Err(error));
}

#[test]
fn each_format_writes_each_value() {
    let utc = UtcMoment::new(879_350_106, 120_000_000);
    let local = utc.local(-28_800);
    assert_text(&Rfc3339, &EXAMPLE, "1997-11-12T09:55:06.12-06:00");
    assert_text(&Rfc3339, &utc, "1997-11-12T15:55:06.12Z");
    assert_text(&Rfc3339, &local, "1997-11-12T07:55:06.12-08:00");
    assert_text(&Rfc2822, &EXAMPLE, "Wed, 12 Nov 1997 09:55:06 -0600");
    assert_text(&Rfc2822, &utc, "Wed, 12 Nov 1997 15:55:06 +0000");
    assert_text(&Rfc2822, &local, "Wed, 12 Nov 1997 07:55:06 -0800");
    assert_text(&ImfFixdate, &utc, "Wed, 12 Nov 1997 15:55:06 GMT");
    let greenwich = EXAMPLE.offset(0, 0, 0);
    assert_text(&ImfFixdate, &greenwich, "Wed, 12 Nov 1997 09:55:06 GMT");
    assert_error(&ImfFixdate, &EXAMPLE, Error::FormatOffsetHour);
    assert_text(&Stamp, &utc, "1997-11-12T15:55:06.120000000Z");
    let three = Iso8601::new().time_precision(TimePrecision::Second, 3);
    assert_text(&three, &EXAMPLE, "1997-11-12T09:55:06.120-06:00");
    assert_text(&three, &utc, "1997-11-12T15:55:06.120Z");
    assert_text(&three, &local, "1997-11-12T07:55:06.120-08:00");
    let line = strftime("%d.%m.%y %H\u{2236}%M\u{2236}%S.%3N %:z");
    assert_text(
        &line,
        &EXAMPLE,
        "12.11.97 09\u{2236}55\u{2236}06.120 -06:00",
    );
    assert_text(&line, &utc, "12.11.97 15\u{2236}55\u{2236}06.120 +00:00");
    assert_text(&line, &local, "12.11.97 07\u{2236}55\u{2236}06.120 -08:00");
    assert_text(&strftime("%d of %B %Y"), &DATE, "12 of November 1997");
}

/// Each part of the moment has a number of its own, so that no two of them were exchanged.
#[test]
fn each_part_of_a_moment_stands_in_its_place() {
    let all = Description::parse(
        "[year] [month] [day] [hour] [minute] [second] [subsecond] [offset_hour] [offset_minute] [offset_second]",
    );
    let moment = Moment::new(2001, 2, 3)
        .at(4, 5, 6, 700_000_008)
        .offset(9, 10, 11);
    let text = "2001 02 03 04 05 06 700000008 09 10 11";
    assert_text(&all.unwrap(), &moment, text);
}

#[test]
fn the_first_part_that_is_out_of_range_is_the_error() {
    let new_year = Moment::new(2000, 1, 1);
    for (moment, error) in [
        (Moment::new(1_000_000, 13, 1), Error::Year),
        (Moment::new(2000, 13, 32), Error::Month),
        (Moment::new(2000, 2, 30).at(24, 0, 0, 0), Error::Day),
        (new_year.at(24, 60, 0, 0), Error::Hour),
        (new_year.at(0, 60, 60, 0), Error::Minute),
        (new_year.at(0, 0, 60, 1_000_000_000), Error::Second),
        (new_year.at(0, 0, 0, 1_000_000_000), Error::Nanosecond),
        (new_year.offset(26, 60, 60), Error::OffsetHours),
        (new_year.offset(-6, 30, 0), Error::OffsetMinutes),
        (new_year.offset(0, 30, -1), Error::OffsetSeconds),
        (Moment::new(10_000, 1, 1), Error::FormatYear),
        (new_year.offset(24, 0, 1), Error::FormatOffsetHour),
        (new_year.offset(23, 59, 1), Error::FormatOffsetSecond),
    ] {
        assert_error(&Rfc3339, &moment, error);
    }
    let (late, finer) = (
        UtcMoment::new(i64::MAX, 0),
        UtcMoment::new(0, 1_000_000_000),
    );
    assert_error(&Stamp, &late, Error::MomentSeconds);
    assert_error(&Rfc2822, &finer, Error::Nanosecond);
    assert_error(
        &Rfc3339,
        &UtcMoment::new(0, 0).local(93_600),
        Error::OffsetHours,
    );
    let hour = Iso8601::new().offset_precision(OffsetPrecision::Hour);
    assert_error(&hour, &new_year.offset(5, 30, 0), Error::FormatOffsetMinute);
    assert_error(&strftime("at %H"), &DATE, Error::Insufficient);
    let year = Description::parse("[year range:standard]").unwrap();
    let date = Date {
        year: 10_000,
        ..DATE
    };
    assert_error(&year, &date, Error::OutOfRange);
    let any: Box<dyn std::error::Error + Send + Sync> = Error::Day.into();
    assert_eq!(any.to_string(), "the month has no such day");
    assert_eq!(Error::Unknown.to_string(), "unknown error");
}

/// Each text has one choice that the others do not have.
#[test]
fn each_choice_of_iso_8601_changes_the_text() {
    let usual = Iso8601::default().time_precision(TimePrecision::Second, 0);
    for (config, text) in [
        (usual, "1997-11-12T09:55:06-06:00"),
        (usual.parts(Parts::Date), "1997-11-12"),
        (usual.parts(Parts::Time), "09:55:06"),
        (usual.parts(Parts::Offset), "-06:00"),
        (usual.parts(Parts::DateTime), "1997-11-12T09:55:06"),
        (usual.parts(Parts::TimeOffset), "09:55:06-06:00"),
        (usual.date_kind(DateKind::Week), "1997-W46-3T09:55:06-06:00"),
        (
            usual.date_kind(DateKind::Ordinal),
            "1997-316T09:55:06-06:00",
        ),
        (
            usual.time_precision(TimePrecision::Hour, 0),
            "1997-11-12T09-06:00",
        ),
        (
            usual.time_precision(TimePrecision::Minute, 1),
            "1997-11-12T09:55.1-06:00",
        ),
        (
            usual.offset_precision(OffsetPrecision::Hour),
            "1997-11-12T09:55:06-06",
        ),
        (usual.separators(false), "19971112T095506-0600"),
        (usual.six_digit_year(true), "+001997-11-12T09:55:06-06:00"),
    ] {
        assert_text(&config, &EXAMPLE, text);
    }
    let comma = Iso8601::new().decimal_sign(DecimalSign::Comma);
    assert_text(&comma, &EXAMPLE, "1997-11-12T09:55:06,120000000-06:00");
    let long = comma
        .time_precision(TimePrecision::Second, 255)
        .six_digit_year(true);
    let text = format!("+001997-11-12T09:55:06,12{}-06:00", "0".repeat(253));
    assert_text(&long, &EXAMPLE, &text);
    assert_eq!(long.width(), text.len());
}

#[test]
fn a_description_is_as_long_as_its_items_can_be() {
    assert_eq!(strftime("%d %B\u{e9}").width(), 2 + 1 + 9 + 2);
    let many = strftime(&"%d-".repeat(32));
    assert_text(&many, &EXAMPLE, &"12-".repeat(32));
    assert_text(&Description::parse("").unwrap(), &EXAMPLE, "");
    let escaped = Description::parse("\\[[day padding:none]\\] \u{e9}").unwrap();
    assert_text(&escaped, &EXAMPLE, "[12] \u{e9}");
}

#[test]
fn a_text_that_is_no_description_has_its_reason_and_byte() {
    for (text, at, words) in [
        ("%", 0, "unfinished conversion `%` at byte 0"),
        ("%d%\u{e9}", 3, "unknown conversion `%\\xc3` at byte 3"),
        ("% d", 1, "unknown conversion `% ` at byte 1"),
        ("%\u{1}", 1, "unknown conversion `%\\x01` at byte 1"),
        ("%-0d", 2, "second flag `0` at byte 2"),
        ("%-F", 2, "no flag is allowed before `F` at byte 2"),
        (&"%d".repeat(65), 0, "the description has 65 items"),
        (
            &"x".repeat(513),
            512,
            "the description has more than 512 bytes",
        ),
    ] {
        let error = Description::parse_strftime(text).unwrap_err();
        assert_eq!((error.at, error.to_string().as_str()), (at, words));
    }
    for (text, at, words) in [
        ("[year", 0, "unclosed bracket at byte 0"),
        ("\u{e9}\\", 2, "invalid escape sequence at byte 2"),
        ("[first [a] x]", 11, "unexpected text at byte 11"),
    ] {
        let error = Description::parse(text).unwrap_err();
        assert_eq!((error.at, error.to_string().as_str()), (at, words));
    }
}

#[test]
fn a_format_is_chosen_when_the_program_runs() {
    let chosen = |name: &str| -> Box<dyn Format<Moment> + Send + Sync> {
        match name {
            "rfc3339" => Box::new(Rfc3339),
            "rfc2822" => Box::new(Rfc2822),
            other => Box::new(strftime(other)),
        }
    };
    assert_text(&chosen("rfc3339"), &EXAMPLE, "1997-11-12T09:55:06.12-06:00");
    assert_text(
        &&*chosen("rfc2822"),
        &EXAMPLE,
        "Wed, 12 Nov 1997 09:55:06 -0600",
    );
    assert_text(&Rc::new(chosen("%y")), &EXAMPLE, "97");
    let shared: Arc<dyn Format<Moment>> = Arc::from(chosen("%Y") as Box<dyn Format<Moment>>);
    assert_text(&shared.clone(), &EXAMPLE, "1997");
}

/// `Display` does not fail, so `to_string` does not panic.
#[test]
fn a_value_is_shown_by_a_format() {
    let utc = UtcMoment::new(879_350_106, 0);
    assert_eq!(utc.display(Rfc3339).to_string(), "1997-11-12T15:55:06Z");
    let local = utc.local(3_600).display(Rfc3339);
    assert_eq!(local.to_string(), "1997-11-12T16:55:06+01:00");
    let year = strftime("in %Y");
    assert_eq!(format!("[{:>9}]", DATE.display(&year)), "[  in 1997]");
    let long = strftime(&"\u{2236}".repeat(100));
    assert_eq!(DATE.display(&long).to_string(), "\u{2236}".repeat(100));
    assert_eq!(format!("{:.3}", DATE.display(&long)), "\u{2236}".repeat(3));
    let none = Moment::new(1997, 11, 31).display(&long);
    assert_eq!(none.to_string(), "<the month has no such day>");
}

/// The words of the error, which is the same for both kinds of moments.
fn assert_unread<E: std::error::Error + PartialEq>(
    moment: Result<Moment, E>,
    utc: Result<UtcMoment, E>,
    words: &str,
) {
    let error = moment.unwrap_err();
    assert_eq!(error.to_string(), words);
    assert_eq!(utc, Err(error));
}

#[test]
fn a_text_of_rfc_3339_is_read_back() {
    let moment = Rfc3339.read("1937-01-01T12:00:27.87+00:20");
    let noon = Moment::new(1937, 1, 1).at(12, 0, 27, 870_000_000);
    assert_eq!(moment, Ok(noon.offset(0, 20, 0)));
    let utc = Rfc3339.read_lenient(b"1937-01-01t12:00:27.8700000009+00:20");
    assert_eq!(utc, Ok(UtcMoment::new(-1_041_337_173, 870_000_000)));
    for (text, words) in [
        (
            "1990-12-31T23:59:60Z",
            "byte 17: expected a digit from 0 to 5, since second 60 has no value",
        ),
        ("1985-04-12t23:20:50z", "byte 10: expected `T`"),
        (
            "1985-02-28T23:20:5",
            "byte 18: expected a digit from 0 to 9",
        ),
        (
            "1985-02-28T23:20:50",
            "byte 19: expected `.`, `Z`, `+` or `-`",
        ),
        (
            "1985-02-28T23:20:50.5",
            "byte 21: expected a digit, `Z`, `+` or `-`",
        ),
        (
            "1985-02-28T23:20:50.123456789x",
            "byte 29: expected `Z`, `+` or `-`",
        ),
        ("1985-04-31T23:20:50Z", "byte 9: expected the digit 0"),
        ("1985-02-28T23:20:50ZZ", "byte 20: expected the end"),
        ("1985-02-28T23-20:50Z", "byte 13: expected `:`"),
    ] {
        assert_unread(Rfc3339.read(text), Rfc3339.read(text), words);
    }
    for (text, words) in [
        ("1985-04-12 23:20:50", "byte 10: expected `T` or `t`"),
        (
            "1985-04-12T23:20:50",
            "byte 19: expected `.`, `Z`, `z`, `+` or `-`",
        ),
    ] {
        assert_unread(
            Rfc3339.read_lenient(text),
            Rfc3339.read_lenient(text),
            words,
        );
    }
}

#[test]
fn a_date_of_mail_is_read() {
    let sent = Moment::new(1997, 11, 21).at(9, 55, 6, 0).offset(-6, 0, 0);
    assert_eq!(Rfc2822.read("Fri, 21 Nov 1997 09:55:06 -0600"), Ok(sent));
    let utc = Rfc2822.read_lenient("Fri, 21 Nov 1997 09(comment):   55  :  06 -0600");
    assert_eq!(utc, Ok(UtcMoment::new(880_127_706, 0)));
    for (text, words) in [
        (
            "Sat, 31 Dec 2016 23:59:60 +0000",
            "byte 23: expected `5`, since second 60 has no value",
        ),
        ("Fri, 21 Nov 1997 09:55:06 GMT", "byte 26: expected `+`"),
        (
            "Mon, 21 Nov 1997 09:55:06 -0600",
            "byte 0: expected `Fri`, the weekday of this date",
        ),
    ] {
        assert_unread(Rfc2822.read(text), Rfc2822.read(text), words);
    }
    for (text, words) in [
        ("", "byte 0: expected the name of a weekday, or a day"),
        ("Fri 21", "byte 4: expected `,`"),
        ("Fri, 32", "byte 5: expected a day from 1 to 31"),
        ("21Nov", "byte 2: expected white space or a comment"),
        ("21 Nox", "byte 3: expected the name of a month"),
        ("21 Nov 1899 ", "byte 7: expected a year from 1900 on"),
        ("31 Nov 1997 ", "byte 0: expected a day that this month has"),
        ("21 Nov 1997 24:", "byte 12: expected an hour from 00 to 23"),
        (
            "21 Nov 1997 23:60",
            "byte 15: expected a minute from 00 to 59",
        ),
        (
            "21 Nov 1997 23:59:61",
            "byte 18: expected a second from 00 to 60",
        ),
        (
            "21 Nov 1997 23:59 CET",
            "byte 18: expected a zone that has a meaning",
        ),
        ("21 Nov 1997 23:59 EST.", "byte 21: expected the end"),
        (
            "21 Nov 1997 23:59 EST (",
            "byte 23: expected the end of a comment",
        ),
    ] {
        assert_unread(
            Rfc2822.read_lenient(text),
            Rfc2822.read_lenient(text),
            words,
        );
    }
}

#[test]
fn iso_8601_without_an_offset_is_read_in_utc() {
    let config = Iso8601::new()
        .parts(Parts::DateTime)
        .time_precision(TimePrecision::Second, 3);
    let utc = config.read("1997-11-12T15:55:06.120");
    assert_eq!(utc, Ok(UtcMoment::new(879_350_106, 120_000_000)));
    let undetermined = Unread::Description(Error::Undetermined);
    let moment = config.read::<Moment>("1997-11-12T15:55:06.120");
    assert_eq!(moment, Err(undetermined));
    assert_eq!(
        undetermined.to_string(),
        "the texts do not determine a moment"
    );
    let moment = Iso8601::new().read("1997-11-12T09:55:06.120000000-06:00");
    assert_eq!(moment, Ok(EXAMPLE));
}

#[test]
fn a_text_of_a_description_is_read_back() {
    let line = strftime("%d/%b/%Y:%H:%M:%S %z");
    let opened = Moment::new(2000, 10, 10).at(13, 55, 36, 0).offset(-7, 0, 0);
    assert_eq!(line.read("10/Oct/2000:13:55:36 -0700"), Ok(opened));
    let utc = line.read("10/Oct/2000:13:55:36 -0700");
    assert_eq!(utc, Ok(UtcMoment::new(971_211_336, 0)));
    for (text, words) in [
        ("10/Okt/2000", "byte 3: expected [month repr:short]"),
        (
            "31/Feb/2000:13:55:36 -0700",
            "byte 0: expected another [day], since no value has this one",
        ),
        ("10/Oct/2000 13:55", "byte 11: expected `:`"),
        ("10/Oct/2000:13:55:36 -0700.", "byte 26: expected the end"),
    ] {
        assert_unread(line.read(text), line.read(text), words);
    }
    let mail = strftime("%a, %d %b %Y %H:%M:%S GMT");
    let error = mail.read::<UtcMoment>("Mon, 06 Nov 1994 08:49:37 GMT");
    let words = "byte 0: expected `S`";
    assert_eq!(error.unwrap_err().to_string(), words);
}
