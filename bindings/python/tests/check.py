"""The texts of the package movaliren: worked examples of the standards, random moments beside the module datetime, columns
beside their rows, and what each call refuses. Ends with status 1 after a difference."""

import array
import ctypes
import datetime
import doctest
import email.utils
import io
import logging
import logging.config
import pathlib
import random
import subprocess
import sys
import zoneinfo

import movaliren

UTC = datetime.timezone.utc
ROWS = 10_000


def expect(text, wanted):
    if text != wanted:
        raise SystemExit(f"check.py: {text!r}, not {wanted!r}")


def error_of(call, *given, **named):
    """The error's type, words and attributes but for the number, or the result where there is no error."""
    try:
        return call(*given, **named)
    except (ValueError, TypeError, OverflowError) as error:
        more = {name: value for name, value in vars(error).items() if name != "number"}
        return f"{type(error).__name__}: {error}", *more.values()


def number_of(call, *given):
    """The number of the error in movaliren.h."""
    try:
        return call(*given)
    except movaliren.Error as error:
        return error.number


def at(offset):
    return datetime.timezone(datetime.timedelta(seconds=offset))


class Zone(datetime.tzinfo):
    """Gives this value as the offset."""

    def __init__(self, offset):
        self.offset = offset

    def utcoffset(self, moment):
        return self.offset


class Finer(datetime.datetime):
    """Has nanoseconds beside its microseconds, as a Timestamp of pandas."""

    nanosecond = 7


def worked():
    """RFC 3339, section 5.8, and RFC 2822, appendix A.1.1."""
    expect(movaliren.rfc3339(datetime.datetime(1985, 4, 12, 23, 20, 50, 520_000, UTC)), "1985-04-12T23:20:50.52Z")
    expect(movaliren.rfc3339(Finer(1985, 4, 12, 23, 20, 50, 520_000, UTC)), "1985-04-12T23:20:50.520000007Z")
    expect(movaliren.rfc3339(datetime.datetime(1996, 12, 19, 16, 39, 57, 0, at(-28800))), "1996-12-19T16:39:57-08:00")
    expect(movaliren.rfc3339(datetime.datetime(1937, 1, 1, 12, 0, 27, 870_000, at(1200))), "1937-01-01T12:00:27.87+00:20")
    expect(movaliren.rfc3339(datetime.datetime(1937, 1, 1, tzinfo=Zone(datetime.timedelta(minutes=-1)))), "1937-01-01T00:00:00-00:01")
    expect(movaliren.rfc3339_at(-1041337173, 870_000_000, 1200), "1937-01-01T12:00:27.87+00:20")
    expect(movaliren.rfc3339_at(-1041337173, 870_000_001), "1937-01-01T11:40:27.870000001Z")
    expect(movaliren.rfc3339_at(0, offset=datetime.timedelta(hours=-1)), "1969-12-31T23:00:00-01:00")
    expect(movaliren.rfc2822(datetime.datetime(1997, 11, 21, 9, 55, 6, 0, at(-21600))), "Fri, 21 Nov 1997 09:55:06 -0600")
    expect(movaliren.rfc2822_at(880127706, offset=-21600), "Fri, 21 Nov 1997 09:55:06 -0600")
    expect(movaliren.iso8601_at(879350106, 120_000_000, 3600, 3), "1997-11-12T16:55:06.120+01:00")
    expect(movaliren.iso8601_at(0), "1970-01-01T00:00:00.000000000Z")
    expect(movaliren.read_rfc3339("1996-12-19T16:39:57-08:00"), datetime.datetime(1996, 12, 20, 0, 39, 57, 0, UTC))
    expect(movaliren.read_rfc3339("1996-12-19T16:39:57-08:00").utcoffset(), datetime.timedelta(hours=-8))
    expect(movaliren.read_rfc3339("1985-04-12t23:20:50.52z", lenient=True).tzinfo, UTC)
    expect(movaliren.read_rfc3339_at("1937-01-01T12:00:27.870000001+00:20"), (-1041337173, 870_000_001))
    expect(movaliren.read_iso8601("1997-11-12T16:55:06.120+01:00", 3), datetime.datetime.fromisoformat("1997-11-12T16:55:06.120+01:00"))
    expect(movaliren.read_iso8601_at("1997-11-12T15:55:06.120000001Z"), (879350106, 120_000_001))
    for text in "Fri, 21 Nov 1997 09:55:06 -0600", "Thu, 13 Feb 1969 23:32:54 -0330":
        expect(movaliren.read_rfc2822(text), email.utils.parsedate_to_datetime(text))
        expect(movaliren.read_rfc2822_at(text), (email.utils.mktime_tz(email.utils.parsedate_tz(text)), 0))
    for text in "Tue, 1 Jul 2003 10:52:37 +0200", "21 Nov 97 09:55:06 GMT", "Thu,\r\n 13\r\n Feb\r\n 1969\r\n 23:32\r\n -0330 (NST)":
        expect(movaliren.read_rfc2822(text, lenient=True), email.utils.parsedate_to_datetime(text))
        expect(movaliren.read_rfc2822_at(text, lenient=True)[0], email.utils.mktime_tz(email.utils.parsedate_tz(text)))


def descriptions():
    moment = datetime.datetime(1996, 12, 19, 16, 39, 57, 0, at(-28800))
    line = movaliren.Description.strftime("%FT%T.%3N%:z")
    expect(line.format(moment), "1996-12-19T16:39:57.000-08:00")
    expect(line.format_at(-1041337173, 870_000_000, 1200), "1937-01-01T12:00:27.870+00:20")
    expect((line.has_component, movaliren.Description("%Y").has_component), (True, False))
    day = movaliren.Description("[weekday], [day] [month repr:long]")
    expect(day.format_date(moment.date()), "Thursday, 19 December")
    expect((day.max_length, line.max_length), (9 + 2 + 2 + 1 + 9, len("+123456-MM-DDTHH:MM:SS.mmm+HH:MM")))
    long = movaliren.Description("é [offset_hour sign:mandatory] " * 12)
    expect(long.format(moment), "é -08 " * 12)
    expect(movaliren.Description.strftime("%d\0%m").format_at(0), "01\0" + "01")
    expect(line.read("1996-12-19T16:39:57.000-08:00"), moment)
    nginx = movaliren.Description.strftime("%d/%b/%Y:%H:%M:%S %z")
    expect(nginx.read("10/Oct/2000:13:55:36 -0700"), datetime.datetime.strptime("10/Oct/2000:13:55:36 -0700", "%d/%b/%Y:%H:%M:%S %z"))
    expect(nginx.read_at("10/Oct/2000:13:55:36 -0700"), (971211336, 0))
    expect(movaliren.Description.strftime("%s.%3N").read("851042397.500"), datetime.datetime.fromtimestamp(851042397.5, UTC))
    expect(movaliren.Description("[year]-[month]-[day] [hour]:[minute]").read("1996-12-20 00:39").tzinfo, UTC)


def refused():
    expect(error_of(movaliren.Description, "[year][yaer]"), ("DescriptionError: unknown component at byte 7", 7))
    expect(error_of(movaliren.Description.strftime, "at %Q"), ("DescriptionError: unknown conversion `%Q` at byte 4", 4))
    expect(error_of(movaliren.Description.strftime, "%Q"), ("DescriptionError: unknown conversion `%Q` at byte 1", 1))
    expect(error_of(movaliren.read_rfc3339, "1985-04-12 23:20"), ("ReadError: byte 10: expected `T`", 10))
    expect(error_of(movaliren.read_rfc3339_at, ""), ("ReadError: byte 0: expected a digit from 0 to 9", 0))
    other = "Sat, 21 Nov 1997 09:55:06 -0600"
    expect(error_of(movaliren.read_rfc2822, other), ("ReadError: byte 0: expected `Fri`, the weekday of this date", 0))
    expect(error_of(movaliren.read_rfc2822_at, "21 Nov 97 09:55 CET", True), ("ReadError: byte 16: expected a zone that has a meaning", 16))
    day = movaliren.Description.strftime("%Y-%m-%d")
    expect(error_of(day.read, "2026-01-01"), ("Error: the texts do not determine a moment",))
    clock = movaliren.Description.strftime("%Y-%m-%d %H:%M:%S")
    expect(error_of(clock.read, "2026-02-31 00:00:00")[0].partition(":")[0], "ReadError")
    expect(error_of(clock.read_at, "2026-02-28 00:00"), ("ReadError: byte 16: expected `:`", 16))
    for offset in 93600, 2**31, 2**32:
        expect(error_of(movaliren.rfc3339_at, 0, 0, offset), ("Error: the hours of the offset are outside -25 to 25",))
    expect(error_of(movaliren.rfc3339_at, 253402300800), ("Error: the format cannot represent the year",))
    expect(error_of(movaliren.Description("[hour]").format_date, datetime.date(2026, 1, 1)),
           ("Error: the value lacks a component of the format",))
    expect(number_of(movaliren.rfc3339_at, 253402300800), -12)
    expect(number_of(movaliren.read_rfc3339, ""), -23)
    expect(number_of(movaliren.Description, "["), -24)
    expect(number_of(movaliren.rfc3339_lines, array.array("q", [253402300800])), -12)
    for nanosecond in (-1, 10**9, 2**32, -(2**32) + 1):
        expect(error_of(movaliren.rfc3339_at, 0, nanosecond), ("Error: the nanosecond is outside 0 to 999999999",))
    for number in (2**63, -(2**63) - 1, 2**64):
        for given in (number,), (0, number), (0, 0, number):
            expect(error_of(movaliren.rfc3339_at, *given)[0].partition(":")[0], "OverflowError")
    expect(error_of(movaliren.rfc3339, "now"), ("TypeError: a moment is a datetime, and not of the type 'str'",))
    expect(error_of(day.format_date, 1), ("TypeError: a date is of the type 'date', and not 'int'",))
    expect(error_of(movaliren.read_rfc3339, b"now"), ("TypeError: a text is a str, and not of the type 'bytes'",))
    expect(error_of(movaliren.rfc3339_at), ("TypeError: the argument 'seconds' is missing",))
    expect(error_of(movaliren.rfc3339_at, 0, seconds=0), ("TypeError: the argument 'seconds' is given twice",))
    expect(error_of(movaliren.rfc3339_at, 0, decimals=3), ("TypeError: there is no argument 'decimals'",))
    expect(error_of(movaliren.rfc3339_at, 0, 0, 0, 3), ("TypeError: 4 arguments are given, and 3 are the most",))
    naive = "ValueError: a datetime without a time zone has no offset from UTC"
    expect(error_of(movaliren.rfc3339, datetime.datetime(2026, 1, 1)), (naive,))
    for offset, error in (None, naive), (datetime.timedelta(days=-1), "ValueError: offset"), (1, "TypeError: tzinfo.utcoffset()"):
        expect(error_of(movaliren.rfc3339, datetime.datetime(2026, 1, 1, tzinfo=Zone(offset)))[0][:len(error)], error)
    part = datetime.timezone(datetime.timedelta(microseconds=1))
    expect(error_of(movaliren.rfc3339, datetime.datetime(2026, 1, 1, tzinfo=part)),
           ("ValueError: the offset from UTC has a part of a second",))
    finer = "ValueError: a datetime has microseconds alone: read_rfc3339_at returns the nanosecond"
    expect(error_of(movaliren.read_rfc3339, "1985-04-12T23:20:50.1234567Z"), (finer,))
    for decimals in -1, 10, 256:
        expect(error_of(movaliren.iso8601_at, 0, decimals=decimals), ("ValueError: decimals are 0 to 9",))


def columns():
    column = array.array("q", [0, 10**9, 253402300800, 1])
    row = "RowError: row 2: the format cannot represent the year"
    lines = b"1970-01-01T00:00:00Z\n2001-09-09T01:46:40Z\n"
    expect(error_of(movaliren.rfc3339_lines, column), (row, 2, lines))
    expect(movaliren.rfc3339_lines(memoryview(column)[::3], end="\0"), b"1970-01-01T00:00:00Z\0" b"1970-01-01T00:00:01Z\0")
    expect(movaliren.rfc3339_lines(memoryview(column)[1::-1]), b"2001-09-09T01:46:40Z\n1970-01-01T00:00:00Z\n")
    expect(movaliren.rfc3339_lines((ctypes.c_int64 * 2)(0, 10**9)), lines)
    expect(movaliren.rfc3339_lines(array.array("q")), b"")
    expect(movaliren.rfc2822_lines(column[:1], offset=-3600), b"Wed, 31 Dec 1969 23:00:00 -0100\n")
    expect(movaliren.iso8601_lines(array.array("q", [-1]), "ms", 3600, decimals=3), b"1970-01-01T00:59:59.999+01:00\n")
    expect(movaliren.Description("[hour]:[minute]").lines(column[:2], offset=3600), b"01:00\n02:46\n")
    for unit, decimals, count in ("s", 0, 1), ("ms", 3, 1000), ("us", 6, 10**6), ("ns", 9, 10**9):
        numbers = [second * count - 1 for second in range(-999, 1000)]
        wanted = [movaliren.iso8601_at(*divmod(n * 10 ** (9 - decimals), 10**9), decimals=decimals) for n in numbers]
        made = movaliren.iso8601_lines(array.array("q", numbers), unit, decimals=decimals)
        expect(made.decode(), "".join(f"{line}\n" for line in wanted))
    expect(error_of(movaliren.rfc3339_lines, column, "m"), ("ValueError: the unit 'm' is none of 's', 'ms', 'us' and 'ns'",))
    swapped = (ctypes.c_int64.__ctype_be__ * 1)()
    for format, other in ("d", array.array("d", [0.0])), ("Q", array.array("Q", [0])), (">q", swapped):
        wrong = f"TypeError: a column has integers of 64 bits in one dimension, and not the format '{format}'"
        expect(error_of(movaliren.rfc3339_lines, other), (wrong,))
    expect(error_of(movaliren.rfc3339_lines, column, end="\r\n"), ("ValueError: a line ends with one byte",))
    try:
        import numpy
    except ImportError:
        return
    moments = numpy.array([0, 1], "datetime64[ms]").view("i8")
    expect(movaliren.rfc3339_lines(moments, "ms"), b"1970-01-01T00:00:00Z\n1970-01-01T00:00:00.001Z\n")


def beside_datetime():
    numbers = random.Random(20261128)
    zones = [zoneinfo.ZoneInfo(name) for name in ("America/St_Johns", "Asia/Kolkata", "Europe/Berlin", "UTC")]
    for row in range(ROWS):
        moment = datetime.datetime.fromtimestamp(numbers.randint(-(10**9), 4 * 10**9), zones[row % 4])
        moment = moment.replace(microsecond=numbers.randrange(10**6))
        if moment.utcoffset().seconds % 60:
            continue
        wanted = moment.isoformat(timespec="microseconds")
        expect(movaliren.iso8601(moment, 6), wanted.replace("+00:00", "Z"))
        expect(movaliren.read_iso8601(wanted.replace("+00:00", "Z"), 6), moment)
        expect(movaliren.rfc2822(moment), f"{moment:%a, %d %b %Y %H:%M:%S %z}")
        expect(movaliren.read_rfc3339(movaliren.rfc3339(moment)), moment)
        expect(movaliren.Description.strftime("%A, %-d %B %Y, %H.%M.%S.%6N %:z").read(
            f"{moment:%A}, {moment.day} {moment:%B %Y, %H.%M.%S.%f} {wanted[26:]}"), moment)
        expect(movaliren.read_rfc2822(email.utils.format_datetime(moment)), moment.replace(microsecond=0))


def logged():
    record = logging.makeLogRecord({"msg": "opened", "created": 851042397.5, "msecs": 500.0})
    chicago = zoneinfo.ZoneInfo("America/Chicago")
    expect(movaliren.Formatter("%(asctime)s %(message)s", zone=chicago).format(record), "1996-12-19T18:39:57.500-06:00 opened")
    expect(movaliren.Formatter("%(asctime)s", zone=UTC, decimals=0).format(record), "1996-12-20T00:39:57Z")
    expect(movaliren.Formatter("%(asctime)s", "%T %:z", zone=UTC).format(record), "00:39:57 +00:00")
    expect(error_of(movaliren.Formatter, "%(asctime)s", "%Q"), ("DescriptionError: unknown conversion `%Q` at byte 1", 1))
    expect(error_of(movaliren.Formatter, decimals=10), ("ValueError: decimals are 0 to 9",))
    expect(error_of(movaliren.Formatter, "{asctime}", style="%")[0].partition(":")[0], "ValueError")
    named = movaliren.Formatter("$asctime $program $message", style="$", defaults={"program": "server"}, zone=UTC)
    expect(named.format(record), "1996-12-20T00:39:57.500Z server opened")


def configured():
    """Formatters of logging.config.dictConfig, by their class and by a call with a zone."""
    by_class = {"class": "movaliren.Formatter", "format": "{message} {asctime}", "style": "{", "datefmt": "%Y", "validate": True}
    by_call = {"()": "movaliren.Formatter", "fmt": "%(asctime)s %(message)s", "zone": UTC, "decimals": 0}
    for formatter, wanted in (by_class, "opened 2026\n"), (by_call, "2026-11-22T15:55:06Z opened\n"):
        output = io.StringIO()
        handler = {"class": "logging.StreamHandler", "stream": output, "formatter": "line"}
        logging.config.dictConfig({"version": 1, "formatters": {"line": formatter}, "handlers": {"all": handler},
                                   "loggers": {"server": {"handlers": ["all"], "propagate": False}}})
        made = {"name": "server", "levelno": logging.ERROR, "msg": "opened", "created": 1795362906.12, "msecs": 120.0}
        logging.getLogger("server").handle(logging.makeLogRecord(made))
        expect(output.getvalue(), wanted)


def examples():
    """The programs of the page, each without a line on the standard input."""
    for path in sorted(pathlib.Path(__file__).parent.parent.glob("examples/*.py")):
        subprocess.run([sys.executable, path], stdin=subprocess.DEVNULL, check=True)


IN_ANOTHER = """
import datetime, movaliren
moment = movaliren.read_rfc3339("1985-04-12T23:20:50.52Z")
assert movaliren.rfc3339(moment) == "1985-04-12T23:20:50.52Z"
assert movaliren.Description.strftime("%d/%b/%Y").format(moment) == "12/Apr/1985"
try:
    movaliren.Description("[")
    raise SystemExit("a description that is none")
except movaliren.DescriptionError as error:
    assert error.at == 0
"""


def interpreters():
    """The package in other interpreters of this process, which end before this one."""
    if sys.version_info < (3, 13):
        import _xxsubinterpreters
        others = [_xxsubinterpreters.create(isolated=False) for _ in range(3)]
        ran = [_xxsubinterpreters.run_string(other, IN_ANOTHER) for other in others]
        ended = _xxsubinterpreters.destroy
    else:
        import _interpreters
        others = [_interpreters.create() for _ in range(3)]
        ran = [_interpreters.run_string(other, IN_ANOTHER) for other in others]
        ended = _interpreters.destroy
    expect(ran, [None] * 3)
    for other in others:
        ended(other)
    expect(movaliren.read_rfc3339("1985-04-12T23:20:50.52Z").tzinfo, UTC)
    expect(number_of(movaliren.Description, "["), -24)


def main():
    for part in worked, descriptions, refused, columns, beside_datetime, logged, configured, examples, interpreters:
        part()
    failed = doctest.testmod(movaliren).failed
    expect(movaliren.library_version(), 100)
    return failed != 0


if __name__ == "__main__":
    raise SystemExit(main())
