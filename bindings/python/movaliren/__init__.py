"""Moments as text, by Movaliren's proved formatter.

    >>> import datetime, zoneinfo, movaliren
    >>> opened = datetime.datetime(1997, 11, 12, 16, 55, 6, 120_000, zoneinfo.ZoneInfo("Europe/Berlin"))
    >>> movaliren.rfc3339(opened)
    '1997-11-12T16:55:06.12+01:00'
    >>> movaliren.iso8601(opened, decimals=3)
    '1997-11-12T16:55:06.120+01:00'
    >>> movaliren.rfc2822_at(880127706, offset=-21600)
    'Fri, 21 Nov 1997 09:55:06 -0600'
    >>> movaliren.Description("[day padding:none] [month repr:long]").format(opened)
    '12 November'
    >>> movaliren.read_rfc3339("1985-04-12T23:20:50.52Z")
    datetime.datetime(1985, 4, 12, 23, 20, 50, 520000, tzinfo=datetime.timezone.utc)
    >>> movaliren.Description.strftime("%d/%b/%Y:%H:%M:%S %z").read_at("10/Oct/2000:13:55:36 -0700")
    (971211336, 0)
    >>> movaliren.read_rfc2822("21 Nov 97 09:55:06 GMT", lenient=True)
    datetime.datetime(1997, 11, 21, 9, 55, 6, tzinfo=datetime.timezone.utc)

A moment is a datetime with a time zone, or in the calls that end in `_at` its seconds since 1970 in UTC, its nanosecond and
how far local clocks are ahead of UTC, in seconds or as a timedelta. The calls that end in `lines` take a column of integers
of 64 bits, as an array.array, a memoryview or an array of numpy, without a copy. Its unit is 's', 'ms', 'us' or 'ns'.

What has no text raises an Error, which is a ValueError with the `number` of the error in movaliren.h. A DescriptionError and
a ReadError also have `at`, the index of the byte that is wrong; a RowError has the `row` and the `lines` before it. A number
that does not fit 64 bits is an OverflowError."""

from ._movaliren import (
    Description, DescriptionError, Error, ReadError, RowError, iso8601, iso8601_at, iso8601_lines, library_version,
    read_iso8601, read_iso8601_at, read_rfc2822, read_rfc2822_at, read_rfc3339, read_rfc3339_at, rfc2822, rfc2822_at, rfc2822_lines, rfc3339, rfc3339_at,
    rfc3339_lines,
)
from .log import Formatter

__version__ = "0.1.0"
__all__ = [
    "Description", "DescriptionError", "Error", "Formatter", "ReadError", "RowError", "iso8601", "iso8601_at",
    "iso8601_lines", "library_version", "read_iso8601", "read_iso8601_at", "read_rfc2822", "read_rfc2822_at", "read_rfc3339", "read_rfc3339_at", "rfc2822",
    "rfc2822_at", "rfc2822_lines", "rfc3339", "rfc3339_at", "rfc3339_lines",
]
