#!/usr/bin/env python3
"""Makes the files of conformance texts.

Each text is made from the edges of each field, by damage to a text, or at random. `definitions.py` and `described.py` judge
it: no answer of a reader is used. Only FOLDER is written to. From the same NUMBER the files are the same, byte for byte.
"""
import argparse
import pathlib
import random
import sys

sys.dont_write_bytecode = True
import definitions
import described
from definitions import DAYS, MONTHS, days_of
from rules import RULES

# Leap years and others, the edges of the range, and years near 1970.
YEARS = [0, 1900, 1969, 1970, 2000, 2023, 2024, 9999]
# The edges of a field of two digits.
EDGES = [0, 1, 9, 10, 11, 12, 13, 19, 20, 23, 24, 29, 30, 31, 32, 39, 40, 49, 50, 59, 60, 61, 69, 70, 90, 99]
# The kinds of bytes by which a text is damaged: digits, letters, marks, white space, control characters, and what is not ASCII.
KINDS = [
    b"0 1 5 9".split(), b"t z Z w a".split(), b": - + . , / (".split(), [b" ", b"\t"], [b"\x00", b"\n"],
    [b"\xff", b"\xc2\xb2", b"\xe2\x88\x92", b"\xef\xbc\x91"],
]
# So many texts has a format, of which the last ones are random.
MOST = 720
ESCAPES = {9: "\\t", 10: "\\n", 13: "\\r", 92: "\\\\"}


def escaped(text):
    """A text on a line: a backslash, and bytes that are not printed, by their escapes."""
    return "".join(ESCAPES.get(b) or (chr(b) if 32 <= b < 127 else "\\x%02x" % b) for b in text)


class Numbers(random.Random):
    """Random numbers by `random` alone, whose numbers no version of Python changes."""

    def between(self, least, greatest):
        return least + int(self.random() * (greatest + 1 - least))

    def pick(self, items):
        return items[int(self.random() * len(items))]


def damaged(numbers, text):
    """The text cut at each byte, and with that byte dropped, doubled, or replaced by one of each kind."""
    for at in range(len(text) + 1):
        yield text[:at]
        yield text[:at] + text[at + 1 :]
        yield text[:at] + text[at : at + 1] + text[at:]
        for kind in KINDS:
            yield text[:at] + numbers.pick(kind) + text[at + 1 :]


def dates(years):
    """The edges of February of each year, those of each month of 2024, and months and days that no year has."""
    yield from ((year, month, day) for year in years for month, day in ((1, 1), (2, 28), (2, 29), (2, 30), (12, 31)))
    yield from ((2024, month, day) for month in range(1, 13) for day in (0, days_of(2024, month), days_of(2024, month) + 1))


def clocks():
    """Each field of a time of day at its edges."""
    for field in range(3):
        for n in EDGES:
            yield tuple(n if it == field else usual for it, usual in enumerate((23, 59, 58)))


def filled(texts, random_text):
    """The texts without repeats, and random ones after them."""
    made = dict.fromkeys(texts)
    while len(made) < MOST:
        made[random_text()] = None
    return list(made)


FRACTIONS = ["", ".0", ".5", ".9", ".12", ".123", ".123456", ".000000001", ".999999999", ".100000000", ".1234567890", ".9999999999",
             ".123456789012345678901234567890", ".", ".a", ",5", "..5", ".5.", ".-5", ". 5"]
NINE = [".000000000", ".000000001", ".123456789", ".999999999", ".100000000", "", ".0", ".12345678", ".1234567890", ",123456789",
        ".12345678a", ".        1"]
OFFSETS = ["Z", "z", "+00:00", "-00:00", "+00:01", "-00:01", "+01:00", "-08:00", "+05:30", "+05:45", "-03:30", "+14:00", "+23:59",
           "-23:59", "+24:00", "-24:00", "+25:59", "-25:59", "+26:00", "+01:60", "+1:00", "+01", "+0100", "+01:0", "+01:00:00", "01:00",
           "", "UTC", "GMT", "Zulu", " Z", "+ 1:00", "\u221201:00"]
EXAMPLES = [b"1985-04-12T23:20:50.52Z", b"1996-12-19T16:39:57-08:00", b"1990-12-31T23:59:60Z", b"1990-12-31T15:59:60-08:00",
            b"1937-01-01T12:00:27.87+00:20"]
SHAPES = ["+2026-11-22T09:55:06", "-0001-11-22T09:55:06", "10000-01-01T00:00:00", "20261122T095506", "2026-W47-7T09:55:06",
          "2026-326T09:55:06", "2026-11-22", "2026-11-22T09:55", "2026-11-22T24:00:00", " 2026-11-22T09:55:06", "2026-11-22t09:55:06",
          "2026-02-29t09:55:06", "2026-11-22t24:55:06", "2026-11-22 09:55:06"]


def numeric(numbers, fractions):
    """Texts of RFC 3339 and of ISO 8601 in its extended format."""
    usual, odd = fractions[0], fractions[2]
    texts = EXAMPLES + [("%04d-%02d-%02dT12:30:45%sZ" % (*date, usual)).encode() for date in dates(YEARS)]
    texts += [("2024-02-29T%02d:%02d:%02d%sZ" % (*clock, usual)).encode() for clock in clocks()]
    texts += [("2024-%02d-10T00:00:00%sZ" % (n, usual)).encode() for n in EDGES]
    texts += [("2024-01-%02dT00:00:00%sZ" % (n, usual)).encode() for n in EDGES]
    texts += [("2000-02-29T00:00:00" + fraction + offset).encode() for fraction in fractions for offset in ("Z", "-00:00")]
    texts += [("2000-02-29T00:00:00" + fraction + offset).encode() for fraction in (usual, odd) for offset in OFFSETS]
    offsets = [(hour, 0) for hour in EDGES] + [(0, minute) for minute in EDGES]
    texts += [("2026-11-22T09:55:06%s%s%02d:%02d" % (usual, sign, *offset)).encode() for sign in "+-" for offset in offsets]
    texts += [(shape + usual + end).encode() for shape in SHAPES for end in ("Z", "z")] + [b"2026-11-22", b"09:55:06"]
    texts += damaged(numbers, ("2026-11-22T09:55:06%s-06:30" % odd).encode())

    def random_text():
        date = numbers.between(0, 9999), numbers.between(1, 12), numbers.between(1, 31)
        clock = numbers.between(0, 23), numbers.between(0, 59), numbers.between(0, 59)
        return ("%04d-%02d-%02dT%02d:%02d:%02d" % (date + clock) + numbers.pick(fractions) + numbers.pick(OFFSETS)).encode()

    return filled(texts, random_text)


def day_name(year, month, day):
    is_date = 1 <= month <= 12 and year > 0 and 1 <= day <= days_of(year, month)
    return DAYS[definitions.weekday_of({"year": year, "month": month, "day": day})] if is_date else b"Mon"


MAIL_YEARS = [1899, 1900, 1969, 1970, 2000, 2023, 2024, 9999]
ZONES = list(definitions.ZONES) + [
    b"gmt", b"Est", b"UTC", b"CET", b"JST", b"Z", b"z", b"A", b"m", b"J", b"j", b"N", b"y", b"-0000", b"+0000", b"+0060", b"+2559",
    b"+2600", b"-2559", b"+100", b"+01:00", b"GMT+1", b"(UTC)", b"+0000 (UTC)", b"-0800 (PST (Pacific))", b"+0000(a\\)b)",
    b"+0000 (open", b"+0000 )", b"+0000 x", b""]
SPACES = [b" ", b"  ", b"\t", b"\r\n ", b"(comment)", b" (a (nested) one) ", b"(a\\)b)", b"(\\\\)", b"", b"(open", b")", b"()"]


def strict_mail(numbers):
    """Texts of RFC 2822 in one form."""
    texts = [b"Fri, 21 Nov 1997 09:55:06 -0600", b"Tue, 01 Jul 2003 10:52:37 +0200", b"Thu, 13 Feb 1969 23:32:54 -0330"]

    def text(date, clock, zone):
        year, month, day = date
        return b"%s, %02d %s %04d %02d:%02d:%02d %s" % (day_name(*date), day, MONTHS[month - 1], year, *clock, zone)

    texts += [text(date, (12, 30, 45), b"+0000") for date in dates(MAIL_YEARS)]
    texts += [text((2024, 2, 29), clock, b"-0330") for clock in clocks()]
    texts += [text((2024, 1, n), (0, 0, 0), b"+0000") for n in EDGES]
    texts += [b"%s, 29 Feb 2024 00:00:00 +0000" % name for name in DAYS + [b"thu", b"THU", b"Thursday", b"Xxx", b""]]
    zones = [b"%s%02d%02d" % (sign, hour, minute) for sign in (b"+", b"-", b"", b" ") for hour in (0, 1, 14, 25, 26, 99)
             for minute in (0, 1, 59, 60)]
    texts += [text((2026, 11, 22), (9, 55, 6), zone) for zone in ZONES + zones]
    texts += damaged(numbers, b"Sun, 22 Nov 2026 09:55:06 -0600")

    def random_text():
        date = numbers.between(1890, 9999), numbers.between(1, 12), numbers.between(1, 31)
        clock = numbers.between(0, 23), numbers.between(0, 59), numbers.between(0, 59)
        zone = b"%s%02d%02d" % (numbers.pick([b"+", b"-"]), numbers.between(0, 25), numbers.between(0, 59))
        return text(date, clock, zone)

    return filled(texts, random_text)


def mail(numbers):
    """Texts of mail and feeds, of RFC 5322 with its obsolete forms."""
    texts = [b"Fri, 21 Nov 1997 09:55:06 -0600", b"Thu,\r\n 13\r\n Feb\r\n 1969\r\n 23:32\r\n -0330 (Newfoundland Time)",
             b"21 Nov 97 09:55:06 GMT", b"Fri, 21 Nov 1997 09(comment):   55  :  06 -0600", b"Wed, 02 Oct 2002 08:00:00 EST",
             b"Sat, 31 Dec 2016 23:59:60 +0000", b"sun, 6 nov 1994 08:49:37 gmt", b"Tue, 1 Jul 103 10:52:37 +0200",
             b"Sunday, 06-Nov-94 08:49:37 GMT", b"Sun Nov  6 08:49:37 1994"]
    texts += [b"%s, %d %s %04d 12:30:45 +0000" % (day_name(*date), date[2], MONTHS[date[1] - 1], date[0]) for date in dates(MAIL_YEARS)]
    texts += [b"29 Feb 2024 %02d:%02d:%02d -0330" % clock for clock in clocks()]
    texts += [b"%s Nov 2026 09:55 GMT" % day for day in b"0 1 01 9 09 10 20 30 31 001 32 40 99 -1 x".split()]
    texts += [b"21 Nov %s 09:55 GMT" % year for year in
              b"0 00 49 50 97 99 000 103 126 999 0000 1899 1900 2026 9999 10000 02026 97a".split()]
    names = [day + b"," for day in DAYS] + b"sun, SUN, Sun Sunday, Xxx, ,".split() + [b"Sun ,", b""]
    texts += [b"%s 22 Nov 2026 09:55:06 +0000" % name for name in names]
    texts += [b"22 %s 2026 09:55:06 +0000" % month for month in b"nov NOV November Nv Now 11".split()]
    texts += [b"Sun, 22 Nov 2026 09:55:06 " + zone for zone in ZONES]
    parts = [b"Sun", b",", b"22", b"Nov", b"2026", b"09", b":", b"55", b":", b"06", b"-0600", b""]
    usual = [b"", b"", b" ", b" ", b" ", b" ", b"", b"", b"", b"", b" ", b""]
    for at in range(len(parts)):
        texts += [b"".join((space if it == at else usual[it]) + part for it, part in enumerate(parts)) for space in SPACES]
    texts += damaged(numbers, b"22 Nov 26 09:55 gmt")

    def random_text():
        year, month, day = numbers.between(1900, 2099), numbers.between(1, 12), numbers.between(1, 31)
        years = [b"%04d" % year, b"%03d" % (year - 1900)] + [b"%02d" % (year % 100)] * (1950 <= year <= 2049)
        clock = b"%02d:%02d" % (numbers.between(0, 23), numbers.between(0, 59)) + numbers.pick([b"", b":%02d" % numbers.between(0, 60)])
        words = [numbers.pick([b"", day_name(year, month, day) + b","]), numbers.pick([b"%d", b"%02d"]) % day, MONTHS[month - 1],
                 numbers.pick(years), clock, numbers.pick(ZONES)]
        case = numbers.pick([bytes.lower, bytes.upper, bytes])
        return b"".join(numbers.pick(SPACES[:9] + [b" "] * 20) + case(word) for word in words if word).lstrip()

    return filled(texts, random_text)


def verdict(read, text):
    """The value by its seconds, nanosecond and offset in seconds, or the first fault with the rule that decides."""
    try:
        found = read(text)
    except definitions.Refused as refused:
        return "- %d %s" % (refused.at, refused.rule)
    return "+ %d %d %d" % (definitions.seconds_of(found), found["nanosecond"], found["offset"])


# Of each file of a format: its texts, and its readings by the names of their columns.
FILES = {
    "rfc3339": (lambda numbers: numeric(numbers, FRACTIONS), {"strict": "rfc3339", "lenient": "rfc3339-lenient"}),
    "mail": (mail, {"verdict": "mail"}),
    "rfc2822": (strict_mail, {"verdict": "rfc2822"}),
    "iso8601": (lambda numbers: numeric(numbers, NINE), {"verdict": "iso8601"}),
    "stamp": (lambda numbers: numeric(numbers, NINE), {"verdict": "stamp"}),
}
# The files that stand here, and the number from which their random texts come.
HERE = ["rfc3339", "mail"]
START = 3339


def write(path, columns, rows):
    """Writes a file: the count, the names of the columns, the sentence of each rule, and the rows."""
    rules = RULES.get(path.stem, {})
    used = sorted({cell.split()[2] for row in rows for cell in row[1:] if cell.startswith("- ")} & rules.keys())
    head = ["%d texts; see README.md" % len(rows), "\t".join(columns)] + ["%s: %s" % (rule, rules[rule]) for rule in used]
    lines = ["# " + line for line in head] + ["\t".join(row) for row in rows]
    path.write_text("\n".join(lines) + "\n", encoding="ascii")


def make(folder, start, is_all):
    """Makes the files that stand here, or all, in a folder."""
    folder.mkdir(parents=True, exist_ok=True)
    for name in FILES if is_all else HERE:
        texts, readings = FILES[name]
        readers = [definitions.READERS[reading] for reading in readings.values()]
        rows = [[escaped(text), *(verdict(read, text) for read in readers)] for text in texts(Numbers("%s %d" % (name, start)))]
        write(folder / (name + ".tsv"), ["text", *readings], rows)
    for name, descriptions in described.FILES.items() if is_all else ():
        numbers = Numbers("%s %d" % (name, start))
        rows = [[description, escaped(text), verdict(read, text)] for description, read, text in described.texts(numbers, *descriptions)]
        write(folder / (name + ".tsv"), ["description", "text", "verdict"], rows)


def main():
    before, _, after = __doc__.partition("\n\n")
    parser = argparse.ArgumentParser(description=before, epilog=after)
    parser.add_argument("folder", metavar="FOLDER", type=pathlib.Path, help="where rfc3339.tsv and mail.tsv are written")
    parser.add_argument("--all", action="store_true", help="write the texts of other formats too, which tests read")
    parser.add_argument("--start", metavar="NUMBER", type=int, default=START, help="where random numbers start (%d)" % START)
    given = parser.parse_args()
    make(given.folder, given.start, given.all)


if __name__ == "__main__":
    main()
