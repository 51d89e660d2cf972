"""Random questions to the readers: values with descriptions and configurations whose texts are read back, and descriptions
of `strftime` whose texts the C library writes too."""
import datetime
import random
import time

DATES = ["Y m d", "Y b d", "Y B d a", "Y j", "Y j B A", "G V u", "G V A", "G V a Y m d", "Y U w", "Y W u", "Y W A U", "C y m d",
         "C y j", "K g V u"]
TIMES = ["H M S", "H M S f", "H M", "I M S p", "I M p", "I p M S f", "H", "H I p M S"]
OFFSETS = ["z x", "z x t"]
MOMENTS = ["s", "s f", "q"]
BETWEEN = ["", "-", "/", " ", ":", ".", ", ", "T", " at ", "_", "", "week "]
PADDING = ["", "", "", "", "", " padding:none", " padding:space", " padding:zero"]
SIGN = ["", "", " sign:mandatory"]
RANGE = ["", "", "", " range:standard"]
INDEX = ["", " one_indexed:false"]
# Each component by its letter: what begins it, and the choices of each modifier.
COMPONENTS = {
    "Y": ("year", RANGE, SIGN, PADDING), "G": ("year base:iso_week", RANGE, SIGN, PADDING),
    "C": ("year repr:century", RANGE, SIGN, PADDING), "K": ("year base:iso_week repr:century", RANGE, SIGN, PADDING),
    "y": ("year repr:last_two", PADDING), "g": ("year base:iso_week repr:last_two", PADDING), "m": ("month", PADDING),
    "b": ("month repr:short",), "B": ("month repr:long",), "d": ("day", PADDING), "j": ("ordinal", PADDING),
    "a": ("weekday repr:short",), "A": ("weekday",), "u": ("weekday repr:monday", INDEX), "w": ("weekday repr:sunday", INDEX),
    "V": ("week_number", PADDING), "U": ("week_number repr:sunday", PADDING), "W": ("week_number repr:monday", PADDING),
    "H": ("hour", PADDING), "I": ("hour repr:12", PADDING), "M": ("minute", PADDING), "S": ("second", PADDING),
    "p": ("period", ["", " case:lower"]), "f": ("subsecond", ["", " digits:3", " digits:6", " digits:9"]),
    "z": ("offset_hour sign:mandatory", PADDING), "x": ("offset_minute", PADDING), "t": ("offset_second", PADDING),
    "s": ("unix_timestamp", SIGN), "q": ("unix_timestamp precision:millisecond", SIGN),
}
# Of each type of value, what a description of it shows, and the parts of a configuration by their places in the program.
TYPES = {
    "Date": ([DATES], [1]), "Time": ([TIMES], [2]), "UtcOffset": ([OFFSETS], [3]), "PlainDateTime": ([DATES, TIMES], [4]),
    "UtcDateTime": ([DATES, TIMES], [4, 5]), "Timestamp": ([DATES, TIMES], [4, 5]), "OffsetDateTime": ([DATES, TIMES, OFFSETS], [5]),
}
NUMBERS = "CdegGHIjklmMSuUVwWyY"
CONVERSIONS = ["%" + letter for letter in NUMBERS + "aAbBhnpPtzcDFrRTxX%"] + ["%" + flag + letter for flag in "-_0" for letter in NUMBERS]
LITERALS = list("abcxyzTZ09 .,:;/-+_[]{}'\"#&!") + ["at ", " - ", "00"]
CHANCE = random.Random(20261128)


def description(name):
    """A random description in brackets of a type."""
    groups = TYPES[name][0]
    if name in ("UtcDateTime", "Timestamp", "OffsetDateTime") and CHANCE.random() < 0.2:
        groups = [MOMENTS] + groups[2:]
    letters = " ".join(CHANCE.choice(group) for group in groups).split()
    if CHANCE.random() < 0.3:
        CHANCE.shuffle(letters)
    is_tight = CHANCE.random() < 0.25
    text = ""
    for letter in letters:
        first, *modifiers = COMPONENTS[letter]
        text += "" if is_tight and CHANCE.random() < 0.75 else CHANCE.choice(BETWEEN)
        text += "[" + first + "".join(map(CHANCE.choice, modifiers)) + "]"
    return text


def config(name):
    """The choices of a random configuration for a type, as the program reads them, which may have up to 255 decimals."""
    decimals = CHANCE.choice([0, CHANCE.randint(1, 9), CHANCE.randint(1, 15), CHANCE.randint(1, 255)])
    choices = [CHANCE.randrange(count) for count in (2, 2, 3, 2, 2)]
    return [CHANCE.choice(TYPES[name][1]), *choices, CHANCE.choice([0, 1, 2, 2]), decimals]


def value(years, least_offset):
    """The numbers of a random value. An offset of less than `least_offset` seconds is zero: where no seconds are shown, a text
    has its sign alone, and no reader takes it."""
    year = CHANCE.choice([CHANCE.randint(*years), CHANCE.randint(max(years[0], 0), min(years[1], 9999))])
    days = 366 if year % 4 == 0 and (year % 100 != 0 or year % 400 == 0) else 365
    nanosecond = CHANCE.choice([0, 10**6 * CHANCE.randrange(1000), 1000 * CHANCE.randrange(10**6), CHANCE.randrange(10**9)])
    offset = CHANCE.choice([0, 3600 * CHANCE.randint(-12, 12), 60 * CHANCE.randint(-1500, 1500), CHANCE.randint(-93599, 93599)])
    return [year, CHANCE.randint(1, days), CHANCE.randrange(86400), nanosecond, offset * (abs(offset) >= least_offset)]


def numbers(*all_of):
    return " ".join(str(number) for list_of in all_of for number in list_of)


def trips(each):
    """Of each type 60 descriptions and 60 configurations, with so many values each."""
    for name in TYPES:
        for _ in range(60):
            shown = description(name)
            least = 1 if "offset_second" in shown else 60
            yield from ("plan %s %s %s" % (name, shown.encode().hex(), numbers(value((-999999, 999999), least))) for _ in range(each))
            choices = config(name)
            yield from ("config %s %s" % (name, numbers(choices, value((-999999, 999999), 60))) for _ in range(each))


def by_c_library(pattern, year, ordinal, second, offset):
    """The text of the C library, in the C locale."""
    date = datetime.date(year, 1, 1) + datetime.timedelta(ordinal - 1)
    clock = second // 3600, second // 60 % 60, second % 60
    fields = (*date.timetuple()[:3], *clock, date.weekday(), ordinal, 0, "", offset)
    return time.strftime(pattern, time.struct_time(fields))


def strftime(count):
    """Random descriptions of `strftime`, each with the text of a value by the C library. Its years have four digits."""
    for _ in range(count):
        pattern = "".join(CHANCE.choice(CHANCE.choice([CONVERSIONS, CONVERSIONS, LITERALS])) for _ in range(CHANCE.randint(1, 12)))
        year, ordinal, second, nanosecond, offset = value((1000, 9999), 1)
        asked = "written %s %s" % (pattern.encode().hex(), numbers([year, ordinal, second, nanosecond, offset]))
        yield asked, by_c_library(pattern, year, ordinal, second, offset)
