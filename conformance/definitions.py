"""What each format takes, by the grammar of its standard: independent of the library's own readers.

A grammar is a list of fields. A field finds the ends that it may have in a text from a place on, with what it has read,
and the furthest byte up to which the text begins one of its texts. `judge` tries them all, so that it names the first
byte at which no text of the grammar goes on. Mail has its own recogniser, which names the first part that is none.
"""
import calendar
import datetime
import re

DAYS = b"Mon Tue Wed Thu Fri Sat Sun".split()
MONTHS = b"Jan Feb Mar Apr May Jun Jul Aug Sep Oct Nov Dec".split()


class Refused(Exception):
    """A text is none: the first byte, and the rule that decides."""

    def __init__(self, at, rule):
        super().__init__(at, rule)
        self.at = at
        self.rule = rule


def days_of(year, month):
    """The days of a month of the proleptic Gregorian calendar; Python's calendar has no year 0."""
    return calendar.monthrange(year + 400 if year == 0 else year, month)[1]


def seconds_of(v):
    """Seconds since 1970-01-01T00:00:00Z. The years are moved by whole cycles, so that Python's calendar has them."""
    cycles = 2 if v["year"] < 800 else 0
    date = datetime.date(v["year"] + 400 * cycles, v["month"], v["day"])
    days = date.toordinal() - 719163 - 146097 * cycles
    return days * 86400 + v["hour"] * 3600 + v["minute"] * 60 + v["second"] - v["offset"]


def weekday_of(v):
    return datetime.date(v["year"] + 400 if v["year"] < 800 else v["year"], v["month"], v["day"]).weekday()


# ---- fields of a grammar


def common(text, at, wanted):
    """How many bytes from a place on are those that are wanted."""
    count = 0
    while count < len(wanted) and at + count < len(text) and text[at + count] == wanted[count]:
        count += 1
    return count


def one_of(rule, choices):
    """One of these texts, each with what it means. The choices may depend on what was read."""

    def match(text, at, read):
        ends, furthest = [], at
        for wanted, meaning in (choices(read) if callable(choices) else choices):
            count = common(text, at, wanted)
            furthest = max(furthest, at + count)
            if count == len(wanted):
                ends.append((at + count, {**read, **meaning}))
        return ends, furthest

    return rule, match


def literal(rule, *texts):
    return one_of(rule, [(text, {}) for text in texts])


def digits(rule, name, width):
    """Any number of this many digits."""

    def match(text, at, read):
        end = at
        while end < min(len(text), at + width) and text[end : end + 1].isdigit():
            end += 1
        return ([(end, {**read, name: int(text[at:end])})] if end == at + width else []), end

    return rule, match


def number(rule, name, width, least, greatest):
    """A number of this many digits between two numbers, of which the last may depend on what was read."""

    def choices(read):
        last = greatest(read) if callable(greatest) else greatest
        return [(b"%0*d" % (width, n), {name: n}) for n in range(least, last + 1)]

    return one_of(rule, choices)


def fraction(rule, least, most, cut=False):
    """A point and decimals, of which nine count."""

    def match(text, at, read):
        if at >= len(text) or text[at : at + 1] != b".":
            return [], at
        ends, end = [], at + 1
        while end < len(text) and text[end : end + 1].isdigit() and (cut or end - at <= most):
            end += 1
            if end - at - 1 >= least:
                digits = text[at + 1 : end][:9].ljust(9, b"0")
                ends.append((end, {**read, "nanosecond": int(digits)}))
        return ends, end

    return rule, match


def nothing(rule, meaning):
    return one_of(rule, [(b"", meaning)])


def either(rule, *branches):
    """One of these lists of fields."""

    def match(text, at, read):
        ends, furthest = [], at
        for branch in branches:
            states = [(at, read)]
            for _, field in branch:
                next_states = []
                for place, state in states:
                    found, far = field(text, place, state)
                    furthest = max(furthest, far)
                    next_states += found
                states = next_states
            ends += states
        return ends, furthest

    return rule, match


def judge(grammar, text, start=None):
    """What the text means, or its first byte at which no text of the grammar goes on, and that field's rule."""
    states, best = [(0, dict(start or {}))], (0, grammar[0][0])
    for rule, field in grammar:
        next_states = []
        for at, read in states:
            ends, furthest = field(text, at, read)
            best = max(best, (furthest, rule), key=lambda b: b[0])
            if furthest == best[0] and not ends:
                best = (furthest, rule)
            next_states += ends
        states = next_states
    for at, read in states:
        if at == len(text):
            return read
    ends = [at for at, _ in states]
    if ends and max(ends) >= best[0]:
        raise Refused(max(ends), "end")
    raise Refused(*best)


def named(rule, name, names):
    return one_of(rule, [(text, {name: place}) for place, text in enumerate(names)])


# ---- RFC 3339


def last_day(read):
    return days_of(read["year"], read["month"])


def signed(rule, greatest, colon, minus_zero):
    """A sign, hours up to the greatest and minutes. `-00:00` only where it is taken."""
    middle = [literal(rule, b":")] if colon else []

    def minute(read):
        least = 0 if minus_zero or read["sign"] > 0 or read["hours"] > 0 else 1
        return [(b"%02d" % n, {"minutes": n}) for n in range(least, 60)]

    return [
        one_of(rule, [(b"+", {"sign": 1}), (b"-", {"sign": -1})]),
        number(rule, "hours", 2, 0, greatest),
        *middle,
        one_of(rule, minute),
    ]


FULL_DATE = [
    digits("date-fullyear", "year", 4),
    literal("full-date", b"-"),
    number("date-month", "month", 2, 1, 12),
    literal("full-date", b"-"),
    number("date-mday", "day", 2, 1, last_day),
]

CLOCK = [
    number("time-hour", "hour", 2, 0, 23),
    literal("partial-time", b":"),
    number("time-minute", "minute", 2, 0, 59),
    literal("partial-time", b":"),
    number("time-second", "second", 2, 0, 59),
]


def rfc3339(lenient):
    z = [b"Z", b"z"] if lenient else [b"Z"]
    t = [b"T", b"t"] if lenient else [b"T"]
    return [
        *FULL_DATE,
        literal("date-time", *t),
        *CLOCK,
        either("time-secfrac", [nothing("time-secfrac", {"nanosecond": 0})], [fraction("time-secfrac", 1, 9, cut=lenient)]),
        either(
            "time-offset",
            [one_of("time-offset", [(letter, {"sign": 1, "hours": 0, "minutes": 0}) for letter in z])],
            signed("time-offset", 23, True, lenient),
        ),
    ]


# ---- ISO 8601


ISO8601 = [
    *FULL_DATE,
    literal("date-time", b"T"),
    *CLOCK,
    fraction("nine-decimals", 9, 9),
    either(
        "time-shift",
        [one_of("time-shift", [(b"Z", {"sign": 1, "hours": 0, "minutes": 0})])],
        signed("time-shift", 25, True, True),
    ),
]


# ---- mail and feeds, by RFC 5322 with its obsolete forms


ZONES = {b"UT": 0, b"GMT": 0, b"EDT": -4, b"EST": -5, b"CDT": -5, b"CST": -6, b"MDT": -6, b"MST": -7, b"PDT": -7, b"PST": -8}


def space(text, at):
    """The end of the white space and comments from a place on."""
    depth = 0
    while at < len(text):
        byte = text[at : at + 1]
        if depth and byte == b"\\":
            at += 2
            if at > len(text):
                raise Refused(len(text), "comment")
            continue
        if byte == b"(":
            depth += 1
        elif byte == b")" and depth:
            depth -= 1
        elif not depth and byte not in b" \t\r\n":
            return at
        at += 1
    if depth:
        raise Refused(len(text), "comment")
    return at


def part(text, at, pattern, rule):
    """The end and the text of a part that stands at a place, in either case."""
    found = re.compile(pattern, re.IGNORECASE | re.ASCII | re.DOTALL).match(text, at)
    if not found:
        raise Refused(at, rule)
    return found.end(), found.group()


def gap(text, at):
    end = space(text, at)
    if end == at:
        raise Refused(at, "FWS")
    return end


def marked(text, at, byte, rule):
    end, _ = part(text, space(text, at), re.escape(byte), rule)
    return space(text, end)


def mail_date(text, at):
    start, weekday = at, None
    if not re.compile(rb"[0-9]").match(text, at):
        at, name = part(text, at, b"|".join(DAYS), "day-of-week")
        weekday = DAYS.index(name.capitalize())
        at = marked(text, at, b",", "day-of-week")
    day_at = at
    at, digits = part(text, at, rb"(?:[0-2]?[0-9]|3[01])(?![0-9])", "obs-day")
    day = int(digits)
    if day == 0:
        raise Refused(day_at, "obs-day")
    at, name = part(text, gap(text, at), b"|".join(MONTHS), "month")
    month = MONTHS.index(name.capitalize()) + 1
    year_at = gap(text, at)
    at, digits = part(text, year_at, rb"[0-9]{2,4}(?![0-9])", "obs-year")
    year = int(digits)
    if len(digits) == 2:
        year += 2000 if year < 50 else 1900
    elif len(digits) == 3:
        year += 1900
    if year < 1900:
        raise Refused(year_at, "year")
    if day > days_of(year, month):
        raise Refused(day_at, "day")
    read = {"year": year, "month": month, "day": day}
    if weekday is not None and weekday != weekday_of(read):
        raise Refused(start, "day-of-week-implied")
    return at, read


def mail_clock(text, at):
    at, hour = part(text, at, rb"[01][0-9]|2[0-3]", "hour")
    at = marked(text, at, b":", "time-of-day")
    at, minute = part(text, at, rb"[0-5][0-9]", "minute")
    end = space(text, at)
    second = b"00"
    if text[end : end + 1] == b":":
        at, second = part(text, space(text, end + 1), rb"[0-5][0-9]|60", "second")
    return gap(text, at), {"hour": int(hour), "minute": int(minute), "second": min(int(second), 59), "nanosecond": 0}


def mail_zone(text, at):
    found = re.compile(rb"([+-])([01][0-9]|2[0-5])([0-5][0-9])").match(text, at)
    if found:
        sign, hours, minutes = found.groups()
        return found.end(), (3600 * int(hours) + 60 * int(minutes)) * (-1 if sign == b"-" else 1)
    end, name = part(text, at, rb"[a-z]+", "zone")
    name = name.upper()
    if name in ZONES:
        return end, 3600 * ZONES[name]
    if len(name) == 1 and name != b"J":
        return end, 0
    raise Refused(at, "obs-zone")


def mail(text):
    at, read = mail_date(text, space(text, 0))
    at, clock = mail_clock(text, gap(text, at))
    at, offset = mail_zone(text, at)
    end = space(text, at)
    if end < len(text):
        raise Refused(end, "end")
    return {**read, **clock, "offset": offset}


# ---- the formats by their names


def by_grammar(grammar):
    def read(text):
        found = judge(grammar, text)
        found.setdefault("nanosecond", 0)
        found["offset"] = found["sign"] * (3600 * found["hours"] + 60 * found["minutes"])
        return found

    return read


def iso8601(text):
    """UTC is `Z` alone, so an offset that is zero by its digits is refused at its sign."""
    found = by_grammar(ISO8601)(text)
    if found["offset"] == 0 and not text.endswith(b"Z"):
        raise Refused(len(text) - len(b"+00:00"), "time-shift")
    return found


STRICT = by_grammar(rfc3339(lenient=False))


def written(read, form, rule):
    """What a text means by a reader, if the one form of its value is this text, or the first byte at which that is not so."""

    def judge_form(text):
        found = read(text)
        own = form(found)
        if own != text:
            raise Refused(common(text, 0, own), rule)
        return found

    return judge_form


def stamp_form(v):
    numbers = v["year"], v["month"], v["day"], v["hour"], v["minute"], v["second"], v["nanosecond"]
    return b"%04d-%02d-%02dT%02d:%02d:%02d.%09dZ" % numbers


def mail_form(v):
    """The form of a text of RFC 2822 that is written here."""
    sign, minutes = (b"-" if v["offset"] < 0 else b"+"), abs(v["offset"]) // 60
    date = DAYS[weekday_of(v)], v["day"], MONTHS[v["month"] - 1], v["year"]
    return b"%s, %02d %s %04d %02d:%02d:%02d %s%02d%02d" % (*date, v["hour"], v["minute"], v["second"], sign, *divmod(minutes, 60))


READERS = {
    "rfc3339": STRICT,
    "rfc3339-lenient": by_grammar(rfc3339(lenient=True)),
    "rfc2822": written(mail, mail_form, "form"),
    "mail": mail,
    "iso8601": iso8601,
    "stamp": written(STRICT, stamp_form, "form"),
}
