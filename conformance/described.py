"""Texts by a description: those of `strftime` and of brackets.

A description is a list of fields, as in `definitions.py`. What a value's text is, is decided by another program: the texts
of `strftime` that are taken are compared with those of the C library when the files are made.
"""
import datetime
import time

import definitions
from definitions import DAYS, MONTHS, Refused
from definitions import days_of, digits, judge, literal, named, number, one_of, signed

FULL_DAYS = b"Monday Tuesday Wednesday Thursday Friday Saturday Sunday".split()
FULL_MONTHS = b"January February March April May June July August September October November December".split()


def month_after_day(read, place):
    return "day" not in read or read["day"] <= days_of(read.get("year", 2000), place + 1)


def month_of(rule, names):
    return one_of(rule, lambda read: [(text, {"month": place + 1}) for place, text in enumerate(names) if month_after_day(read, place)])


def last_day(read):
    return days_of(read.get("year", 2000), read["month"]) if "month" in read else 31


def twelve(rule):
    return one_of(rule, [(b"%02d" % n, {"twelve": n % 12}) for n in range(1, 13)])


def half(rule):
    return one_of(rule, lambda read: [(b"AM", {"hour": read["twelve"]}), (b"PM", {"hour": read["twelve"] + 12})])


def year(rule):
    """Four digits of a year in which the day stands, if the day was read before."""
    any_year = digits(rule, "year", 4)

    def match(text, at, read):
        if (read.get("day"), read.get("month")) != (29, 2):
            return any_year[1](text, at, read)
        near = {text[at : at + 4 - k] + b"%0*d" % (k, n) for k in (1, 2, 3) for n in range(10**k)}
        leaps = [y for y in near if len(y) == 4 and y.isdigit() and days_of(int(y), 2) == 29] or [b"%04d" % y for y in range(0, 10000, 400)]
        return one_of(rule, [(y, {"year": int(y)}) for y in leaps])[1](text, at, read)

    return rule, match


def ordinal(rule):
    def choices(read):
        days = 366 if days_of(read["year"], 2) == 29 else 365
        first = datetime.date(2000 if days == 366 else 2001, 1, 1)
        found = [(n, first + datetime.timedelta(n - 1)) for n in range(1, days + 1)]
        return [(b"%03d" % n, {"month": d.month, "day": d.day}) for n, d in found]

    return one_of(rule, choices)


def stands(name, names):
    return [named("field", name, names)]


F = "field"
PARTS = {
    "year": [year(F)],
    "month": [one_of(F, lambda r: [(b"%02d" % n, {"month": n}) for n in range(1, 13) if month_after_day(r, n - 1)])],
    "day": [number(F, "day", 2, 1, last_day)],
    "hour": [number(F, "hour", 2, 0, 23)],
    "minute": [number(F, "minute", 2, 0, 59)],
    "second": [number(F, "second", 2, 0, 59)],
    "mon": [month_of(F, MONTHS)],
    "month name": [month_of(F, FULL_MONTHS)],
    "wday": stands("weekday", DAYS),
    "weekday name": stands("weekday", FULL_DAYS),
    "ordinal": [ordinal(F)],
    "twelve": [twelve(F)],
    "half": [half(F)],
    "zone": signed(F, 25, False, False),
    "zone colon": signed(F, 25, True, False),
    "nine": [digits(F, "nanosecond", 9)],
    "milli": [one_of(F, [(b"%03d" % n, {"nanosecond": n * 1000000}) for n in range(1000)])],
}
STRFTIME = {
    "%Y": "year", "%m": "month", "%d": "day", "%H": "hour", "%M": "minute", "%S": "second", "%b": "mon", "%B": "month name",
    "%a": "wday", "%A": "weekday name", "%j": "ordinal", "%I": "twelve", "%p": "half", "%z": "zone",
}
BRACKETS = {
    "[year]": "year", "[month]": "month", "[day]": "day", "[hour]": "hour", "[minute]": "minute", "[second]": "second",
    "[month repr:short]": "mon", "[month repr:long]": "month name", "[weekday repr:short]": "wday", "[weekday]": "weekday name",
    "[ordinal]": "ordinal", "[hour repr:12]": "twelve", "[period]": "half", "[subsecond digits:9]": "nine",
    "[subsecond digits:3]": "milli", "[offset_hour sign:mandatory]:[offset_minute]": "zone colon",
    "[offset_hour sign:mandatory][offset_minute]": "zone",
}
STRFTIME_DESCRIPTIONS = [
    "%Y-%m-%d %H:%M:%S", "%d/%b/%Y:%H:%M:%S %z", "%a, %d %b %Y %H:%M:%S %z", "%Y%m%dT%H%M%S%z", "%A, %d %B %Y, %I:%M:%S %p",
    "%Y-%jT%H:%M:%S", "%d.%m.%Y %H:%M:%S", "%m/%d/%Y %I:%M:%S %p", "%b %d %Y %H:%M:%S", "100%% %Y-%m-%d %H:%M:%S",
]
BRACKET_DESCRIPTIONS = [
    "[year]-[month]-[day] [hour]:[minute]:[second]", "[year]-[month]-[day]T[hour]:[minute]:[second].[subsecond digits:9]"
    "[offset_hour sign:mandatory]:[offset_minute]", "[day]/[month repr:short]/[year]:[hour]:[minute]:[second] "
    "[offset_hour sign:mandatory][offset_minute]", "[weekday repr:short], [day] [month repr:short] [year] [hour]:[minute]:[second]",
    "[weekday], [day] [month repr:long] [year], [hour repr:12]:[minute]:[second] [period]", "[year]-[ordinal]T[hour]:[minute]:[second]",
    "[year][month][day]T[hour][minute][second].[subsecond digits:3]", "[day].[month].[year] [hour]:[minute]:[second]",
]


def parsed(description, parts):
    """The fields of a description, and the names of its parts."""
    fields, names, at = [], [], 0
    while at < len(description):
        found = max((word for word in parts if description.startswith(word, at)), key=len, default=None)
        if found:
            fields += PARTS[parts[found]]
            names.append(parts[found])
            at += len(found)
        else:
            byte = b"%" if description.startswith("%%", at) else description[at].encode()
            fields.append(literal(F, byte))
            names.append(byte)
            at += 2 if description.startswith("%%", at) else 1
    return fields, names


def text_of(names, v):
    """The text of a value, part by part."""
    date = datetime.date(v["year"] + 400 if v["year"] < 800 else v["year"], v["month"], v["day"])
    minutes = abs(v["offset"]) // 60
    sign = b"-" if v["offset"] < 0 else b"+"
    words = {
        "year": b"%04d" % v["year"], "month": b"%02d" % v["month"], "day": b"%02d" % v["day"], "hour": b"%02d" % v["hour"],
        "minute": b"%02d" % v["minute"], "second": b"%02d" % v["second"], "mon": MONTHS[v["month"] - 1],
        "month name": FULL_MONTHS[v["month"] - 1], "wday": DAYS[date.weekday()], "weekday name": FULL_DAYS[date.weekday()],
        "ordinal": b"%03d" % date.timetuple().tm_yday, "twelve": b"%02d" % (v["hour"] % 12 or 12),
        "half": b"AM" if v["hour"] < 12 else b"PM", "zone": sign + b"%02d%02d" % divmod(minutes, 60),
        "zone colon": sign + b"%02d:%02d" % divmod(minutes, 60), "nine": b"%09d" % v["nanosecond"],
        "milli": b"%03d" % (v["nanosecond"] // 1000000),
    }
    return b"".join(n if isinstance(n, bytes) else words[n] for n in names)


def by_c_library(description, v):
    """The text of the C library, of a year that its `strftime` fills with zeros in no other way."""
    date = datetime.date(v["year"], v["month"], v["day"])
    fields = time.struct_time(
        (v["year"], v["month"], v["day"], v["hour"], v["minute"], v["second"], date.weekday(), date.timetuple().tm_yday, 0, "", v["offset"]))
    return time.strftime(description, fields).encode()


def reader(fields, has_zone):
    def read(text):
        found = judge(fields, text)
        found.setdefault("nanosecond", 0)
        found["offset"] = found["sign"] * (3600 * found["hours"] + 60 * found["minutes"]) if has_zone else 0
        if "weekday" in found and found["weekday"] != definitions.weekday_of(found):
            raise Refused(0, "weekday")
        return found

    return read


def values(numbers, names):
    has_zone, has_nine, has_milli = (any(name in names for name in group) for group in (("zone", "zone colon"), ("nine",), ("milli",)))
    nanoseconds = [0, 1000000, 999000000] if has_milli else [0, 1, 123456789, 999999999] if has_nine else [0]
    for _ in range(VALUES):
        year, month = numbers.pick([1000, 1582, 1900, 1969, 1970, 2000, 2024, 2026, 2100, 9999]), numbers.between(1, 12)
        yield {
            "year": year, "month": month, "day": numbers.pick([1, 9, 10, 28, days_of(year, month)]),
            "hour": numbers.pick([0, 1, 11, 12, 13, 23]), "minute": numbers.pick([0, 9, 30, 59]), "second": numbers.pick([0, 9, 30, 59]),
            "nanosecond": numbers.pick(nanoseconds), "offset": 60 * numbers.pick([0, 1, -1, 330, -210, 1439, -1439]) * has_zone,
        }


def damaged(numbers, texts):
    """The first text, damaged at each byte, and each with another digit or in another case."""
    whole = texts[0]
    for at in range(len(whole) + 1):
        yield from (whole[:at], whole[:at] + whole[at + 1 :], whole[:at] + b" " + whole[at:])
        yield from (whole[:at] + numbers.pick(kind) + whole[at + 1 :] for kind in ([b"0", b"1", b"3", b"6", b"9"], [b"x", b"-", b"Z"]))
    for text in texts:
        at = numbers.between(0, len(text) - 1)
        yield from (text[:at] + b"%d" % numbers.between(0, 9) + text[at + 1 :], text.lower(), text.upper())


def texts(numbers, descriptions, parts, is_checked):
    """Texts by each description, with what reads them. Those of values are compared with the C library, if that is asked for."""
    for description in descriptions:
        fields, names = parsed(description, parts)
        read = reader(fields, "zone" in names or "zone colon" in names)
        whole = []
        for value in values(numbers, names):
            whole.append(text_of(names, value))
            assert not is_checked or whole[-1] == by_c_library(description, value), (description, value)
        for text in dict.fromkeys([*whole, *damaged(numbers, whole)]):
            yield description, read, text


VALUES = 20
FILES = {
    "strftime": (STRFTIME_DESCRIPTIONS, STRFTIME, True),
    "brackets": (BRACKET_DESCRIPTIONS, BRACKETS, False),
}
