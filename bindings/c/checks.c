/* What no proof sees of the calls: the order of their arguments, the layout of structs, buffers that are exact, one byte
 * short, null and empty, that nothing is allocated, the words of errors, and the code of the header itself. Prints what is
 * wrong, and then ends with status 1. */
#include "movaliren.h"

#include <stdlib.h>

enum { WIDE = 400, FILL = '#', NOT_READ = MOVALIREN_ERROR_NOT_READ, NEVER = MOVALIREN_ERROR_UNDETERMINED };

static int failures;

static void expect(int is_right, const char *what, const char *got)
{
    if (is_right)
        return;
    failures++;
    printf("%s: %s\n", what, got);
}

/* ---- allocations: the linker puts these functions in the place of the C library's */

static long asked;

void *__real_malloc(size_t size), *__real_realloc(void *pointer, size_t size), *__real_calloc(size_t count, size_t size);
void *__wrap_malloc(size_t size) { return asked++, __real_malloc(size); }
void *__wrap_realloc(void *pointer, size_t size) { return asked++, __real_realloc(pointer, size); }
void *__wrap_calloc(size_t count, size_t size) { return asked++, __real_calloc(count, size); }

/* ---- texts: each call once, with arguments of which no two may change places */

typedef ptrdiff_t writer(void *buffer, size_t size);

#define WRITES(name, call) \
    static ptrdiff_t name(void *buffer, size_t size) { return call; }
#define NOW 879350106, 120000000

/* Wednesday, 12 November 1997, 9:55:06.12, six hours behind UTC: second 879350106 of Unix time. */
static const struct movaliren_moment parts = { 1997, 11, 12, 9, 55, 6, 120000000, -6, 0, 0 };
static const struct movaliren_iso8601_config milliseconds = MOVALIREN_ISO8601_DECIMALS(3),
    week = { 5, MOVALIREN_ISO8601_BY_WEEK, MOVALIREN_ISO8601_TO_MINUTE, 2, MOVALIREN_ISO8601_TO_HOUR, 0, 1, 1 };
static struct movaliren_description form, none;
static const char pattern[] = "%d %B %H.%M %z", brackets[] = "[day] [month repr:long] [hour].[minute]";
static ptrdiff_t error_number;
static struct movaliren_read_error read_error;
static struct movaliren_parse_error parse_error;

WRITES(rfc3339, movaliren_rfc3339(&parts, buffer, size))
WRITES(rfc2822, movaliren_rfc2822(&parts, buffer, size))
WRITES(iso8601, movaliren_iso8601(&parts, buffer, size))
WRITES(iso8601_with, movaliren_iso8601_with(&week, &parts, buffer, size))
WRITES(stamp_utc, movaliren_stamp_utc(NOW, buffer, size))
WRITES(rfc3339_utc, movaliren_rfc3339_utc(NOW, buffer, size))
WRITES(rfc2822_utc, movaliren_rfc2822_utc(NOW, buffer, size))
WRITES(imf_fixdate_utc, movaliren_imf_fixdate_utc(NOW, buffer, size))
WRITES(iso8601_utc, movaliren_iso8601_utc(NOW, buffer, size))
WRITES(iso8601_with_utc, movaliren_iso8601_with_utc(&milliseconds, NOW, buffer, size))
WRITES(rfc3339_local, movaliren_rfc3339_local(NOW, 3600, buffer, size))
WRITES(rfc2822_local, movaliren_rfc2822_local(NOW, 3600, buffer, size))
WRITES(iso8601_local, movaliren_iso8601_local(NOW, 3600, buffer, size))
WRITES(iso8601_with_local, movaliren_iso8601_with_local(&milliseconds, NOW, 3600, buffer, size))
WRITES(description, movaliren_description_format(&form, &parts, buffer, size))
WRITES(description_utc, movaliren_description_format_utc(&form, NOW, buffer, size))
WRITES(description_local, movaliren_description_format_local(&form, NOW, 3600, buffer, size))
WRITES(strftime_utc, movaliren_format_strftime_utc(pattern, sizeof pattern - 1, NOW, buffer, size))
WRITES(strftime_local, movaliren_format_strftime_local(pattern, sizeof pattern - 1, NOW, 3600, buffer, size))
WRITES(brackets_utc, movaliren_format_brackets_utc(brackets, sizeof brackets - 1, NOW, buffer, size))
WRITES(brackets_local, movaliren_format_brackets_local(brackets, sizeof brackets - 1, NOW, 3600, buffer, size))
WRITES(strerror_r, movaliren_strerror_r(error_number, buffer, size))
WRITES(read_strerror_r, movaliren_read_strerror_r(&read_error, buffer, size))
WRITES(parse_strerror_r, movaliren_parse_strerror_r(&parse_error, buffer, size))

/* The answer of a call over a filled buffer, whose bytes after the text must be unchanged. */
static ptrdiff_t called(writer *write, char *buffer, size_t size)
{
    memset(buffer, FILL, WIDE);
    const ptrdiff_t count = write(buffer, size);
    for (size_t i = count < 0 ? 0 : (size_t)count; i < WIDE; i++)
        if (buffer[i] != FILL) {
            expect(0, "a byte behind the text has changed", buffer);
            break;
        }
    return count;
}

/* The text is written to a buffer of its length and to a longer one, and to no shorter one. */
static void expect_text(writer *write, const char *text)
{
    char buffer[WIDE + 1] = "";
    const size_t len = strlen(text);
    expect(called(write, buffer, WIDE) == (ptrdiff_t)len && !memcmp(buffer, text, len), text, buffer);
    expect(called(write, buffer, len) == (ptrdiff_t)len && !memcmp(buffer, text, len), text, buffer);
    for (size_t size = 0; size < len; size++)
        expect(called(write, buffer, size) == MOVALIREN_ERROR_BUFFER_TOO_SMALL, text, "written to a shorter buffer");
    expect(write(NULL, 0) == (len ? MOVALIREN_ERROR_BUFFER_TOO_SMALL : 0), text, "written to nothing");
}

static void try_texts(void)
{
    static const struct { writer *write; const char *text; } rows[] = {
        { rfc3339, "1997-11-12T09:55:06.12-06:00" }, { rfc2822, "Wed, 12 Nov 1997 09:55:06 -0600" },
        { iso8601, "1997-11-12T09:55:06.120000000-06:00" }, { iso8601_with, "+001997W463T0955,10-06" },
        { stamp_utc, "1997-11-12T15:55:06.120000000Z" }, { rfc3339_utc, "1997-11-12T15:55:06.12Z" },
        { rfc2822_utc, "Wed, 12 Nov 1997 15:55:06 +0000" }, { iso8601_utc, "1997-11-12T15:55:06.120000000Z" },
        { iso8601_with_utc, "1997-11-12T15:55:06.120Z" }, { rfc3339_local, "1997-11-12T16:55:06.12+01:00" },
        { rfc2822_local, "Wed, 12 Nov 1997 16:55:06 +0100" }, { imf_fixdate_utc, "Wed, 12 Nov 1997 15:55:06 GMT" },
        { iso8601_local, "1997-11-12T16:55:06.120000000+01:00" },
        { iso8601_with_local, "1997-11-12T16:55:06.120+01:00" }, { description, "12 November 09.55 -0600" },
        { description_utc, "12 November 15.55 +0000" }, { description_local, "12 November 16.55 +0100" },
        { strftime_utc, "12 November 15.55 +0000" }, { strftime_local, "12 November 16.55 +0100" },
        { brackets_utc, "12 November 15.55" }, { brackets_local, "12 November 16.55" },
    };
    expect(movaliren_description_parse_strftime(&form, pattern, sizeof pattern - 1, &parse_error) == 0, pattern, "refused");
    for (size_t i = 0; i < sizeof rows / sizeof *rows; i++)
        expect_text(rows[i].write, rows[i].text);
    for (error_number = NEVER - 1; error_number <= 1; error_number++)
        expect_text(strerror_r, movaliren_strerror(error_number));
}

/* ---- errors: each field of a struct has its own, so that none may change places, and the buffer is unchanged */

static struct movaliren_moment wrong;
static struct movaliren_iso8601_config wrong_config;

WRITES(wrong_moment, movaliren_rfc3339(&wrong, buffer, size))
WRITES(config_of, movaliren_iso8601_with(&wrong_config, &parts, buffer, size))
WRITES(no_second, movaliren_rfc3339_utc(INT64_MAX, 0, buffer, size))
WRITES(no_nanosecond, movaliren_description_format_utc(&form, 0, 1000000000, buffer, size))
WRITES(no_offset, movaliren_rfc2822_local(0, 0, INT64_MIN, buffer, size))
WRITES(no_date, movaliren_description_format_date(&form, 1997, 2, 29, buffer, size))
WRITES(no_time, movaliren_description_format_date(&form, 1997, 2, 28, buffer, size))
WRITES(no_description, movaliren_description_format(&none, &parts, buffer, size))

static void expect_error(writer *write, ptrdiff_t error)
{
    char buffer[WIDE + 1] = "";
    expect(called(write, buffer, WIDE) == error && called(write, buffer, 0) == error, movaliren_strerror(error), "not returned");
}

static void try_errors(void)
{
    static const struct movaliren_moment moments[] = { { 1000000, 13, 32, 24, 60, 60, 1000000000, 26, 60, 60 },
        { 0, 13, 32, 24, 60, 60, 1000000000, 26, 60, 60 }, { 0, 2, 30, 24, 60, 60, 1000000000, 26, 60, 60 },
        { 0, 2, 29, 24, 60, 60, 1000000000, 26, 60, 60 }, { 0, 2, 29, 23, 60, 60, 1000000000, 26, 60, 60 },
        { 0, 2, 29, 23, 59, 60, 1000000000, 26, 60, 60 }, { 0, 2, 29, 23, 59, 59, 1000000000, 26, 60, 60 },
        { 0, 2, 29, 23, 59, 59, 0, 26, 60, 60 }, { 0, 2, 29, 23, 59, 59, 0, 25, 60, 60 },
        { 0, 2, 29, 23, 59, 59, 0, 25, 59, 60 } };
    static const struct { struct movaliren_iso8601_config config; const char *text; } configs[] = {
        { { 1, 0, 2, 9, 1, 1, 0, 0 }, "1997-11-12" }, { { 1, 1, 2, 9, 1, 1, 0, 0 }, "1997-W46-3" },
        { { 1, 0, 2, 9, 1, 0, 0, 0 }, "19971112" }, { { 1, 0, 2, 9, 1, 1, 1, 0 }, "+001997-11-12" },
        { { 2, 0, 1, 2, 1, 1, 0, 0 }, "09:55.10" }, { { 2, 0, 1, 2, 1, 1, 0, 1 }, "09:55,10" },
        { { 3, 0, 2, 9, 0, 1, 0, 0 }, "-06" }, { { 3, 0, 2, 9, 1, 1, 0, 0 }, "-06:00" },
        { { 0, 0, 0, 0, 0, 0, 0, 0 }, NULL }, { { 5, 3, 2, 9, 1, 1, 0, 0 }, NULL },
        { { 5, 0, 3, 9, 1, 1, 0, 0 }, NULL }, { { 5, 0, 2, 9, 2, 1, 0, 0 }, NULL },
    };
    for (int field = 0; field < 10; field++)
        wrong = moments[field], expect_error(wrong_moment, MOVALIREN_ERROR_YEAR - field);
    for (size_t i = 0; i < sizeof configs / sizeof *configs; i++) {
        wrong_config = configs[i].config;
        if (configs[i].text)
            expect_text(config_of, configs[i].text);
        else
            expect_error(config_of, MOVALIREN_ERROR_BAD_CONFIG);
    }
    expect_error(no_second, MOVALIREN_ERROR_MOMENT_SECONDS);
    expect_error(no_nanosecond, MOVALIREN_ERROR_NANOSECOND);
    expect_error(no_offset, MOVALIREN_ERROR_OFFSET_HOURS);
    expect_error(no_date, MOVALIREN_ERROR_DAY);
    expect_error(no_time, MOVALIREN_ERROR_INSUFFICIENT);
    expect_error(no_description, MOVALIREN_ERROR_BAD_ITEM);
}

/* ---- readers: each call once, and the words of each kind of fault */

static struct movaliren_description date_form, zoned_form;

typedef ptrdiff_t part_reader(const void *, size_t, struct movaliren_moment *, struct movaliren_read_error *);
typedef ptrdiff_t utc_reader(const void *, size_t, struct movaliren_utc_moment *, struct movaliren_read_error *);

#define READS(name, taken, ...)                                                                                        \
    static ptrdiff_t name(const void *text, size_t len, struct movaliren_moment *to, struct movaliren_read_error *e)   \
    {                                                                                                                  \
        return movaliren_##taken(__VA_ARGS__, text, len, to, e);                                                       \
    }                                                                                                                  \
    static ptrdiff_t name##_utc(                                                                                       \
        const void *text, size_t len, struct movaliren_utc_moment *to, struct movaliren_read_error *e)                 \
    {                                                                                                                  \
        return movaliren_##taken##_utc(__VA_ARGS__, text, len, to, e);                                                 \
    }

READS(by_configuration, read_iso8601_with, &milliseconds)
READS(by_description, description_read, &zoned_form)
READS(without_offset, description_read, &form)
READS(by_date, description_read, &date_form)
READS(by_nothing, description_read, &none)

#define BOTH(name) movaliren_read_##name, movaliren_read_##name##_utc
#define OWN(name) name, name##_utc
#define NO_MOMENT { 0, 0, 0, 0, 0, 0, 0, 0, 0, 0 }, { 0, 0 }

static const struct {
    part_reader *by_parts;
    utc_reader *in_utc;
    const char *text, *words; /* the words of the fault, if there is one */
    struct movaliren_moment moment;
    struct movaliren_utc_moment utc;
    ptrdiff_t error, error_in_utc;
} readings[] = {
    { BOTH(rfc3339), "1937-01-01T12:00:27.87+00:20", NULL, { 1937, 1, 1, 12, 0, 27, 870000000, 0, 20, 0 },
        { -1041337173, 870000000 }, 0, 0 },
    { BOTH(rfc3339), "1990-12-31T23:59:60Z", "byte 17: expected a digit from 0 to 5, since second 60 has no value", NO_MOMENT, NOT_READ, NOT_READ },
    { BOTH(rfc3339), "2026-04-31T00:00:00Z", "byte 9: expected the digit 0", NO_MOMENT, NOT_READ, NOT_READ },
    { BOTH(rfc3339), "1985-04-12t23:20:50Z", "byte 10: expected `T`", NO_MOMENT, NOT_READ, NOT_READ },
    { BOTH(rfc3339), "1985-04-12T23:20:50", "byte 19: expected `.`, `Z`, `+` or `-`", NO_MOMENT, NOT_READ, NOT_READ },
    { BOTH(rfc3339), "1985-04-12T23:20:50.5", "byte 21: expected a digit, `Z`, `+` or `-`", NO_MOMENT, NOT_READ, NOT_READ },
    { BOTH(rfc3339), "1985-04-12T23:20:50.520000000", "byte 29: expected `Z`, `+` or `-`", NO_MOMENT, NOT_READ, NOT_READ },
    { BOTH(rfc3339), "", "byte 0: expected a digit from 0 to 9", NO_MOMENT, NOT_READ, NOT_READ },
    { BOTH(rfc3339_lenient), "1985-04-12t23:20:50z", NULL, { 1985, 4, 12, 23, 20, 50, 0, 0, 0, 0 }, { 482196050, 0 }, 0, 0 },
    { BOTH(rfc3339_lenient), "1985-04-12 23:20:50Z", "byte 10: expected `T` or `t`", NO_MOMENT, NOT_READ, NOT_READ },
    { BOTH(rfc3339_lenient), "1985-04-12T23:20:50", "byte 19: expected `.`, `Z`, `z`, `+` or `-`", NO_MOMENT, NOT_READ, NOT_READ },
    { BOTH(rfc2822), "Thu, 13 Feb 1969 23:32:54 -0330", NULL, { 1969, 2, 13, 23, 32, 54, 0, -3, -30, 0 }, { -27723426, 0 }, 0, 0 },
    { BOTH(rfc2822), "Sat, 21 Nov 1997 09:55:06 -0600", "byte 0: expected `Fri`, the weekday of this date", NO_MOMENT, NOT_READ, NOT_READ },
    { BOTH(rfc2822), "Fri, 31 Nov 1997 09:55:06 -0600", "byte 5: expected a day that this month has", NO_MOMENT, NOT_READ, NOT_READ },
    { BOTH(rfc2822_lenient), "21 Nov 97 (a (nested) comment) 09:55:06 EST", NULL, { 1997, 11, 21, 9, 55, 6, 0, -5, 0, 0 }, { 880124106, 0 }, 0, 0 },
    { BOTH(rfc2822_lenient), "Fro, 21 Nov 1997 09:55:06 -0600", "byte 0: expected the name of a weekday, or a day", NO_MOMENT, NOT_READ, NOT_READ },
    { BOTH(rfc2822_lenient), "Fri, 32 Nov 1997 09:55:06 -0600", "byte 5: expected a day from 1 to 31", NO_MOMENT, NOT_READ, NOT_READ },
    { BOTH(rfc2822_lenient), "Fri, 21 Nox 1997 09:55:06 -0600", "byte 8: expected the name of a month", NO_MOMENT, NOT_READ, NOT_READ },
    { BOTH(rfc2822_lenient), "Thu, 21 Nov 1899 09:55:06 -0600", "byte 12: expected a year from 1900 on", NO_MOMENT, NOT_READ, NOT_READ },
    { BOTH(rfc2822_lenient), "Fri, 21 Nov 1997 24:55:06 -0600", "byte 17: expected an hour from 00 to 23", NO_MOMENT, NOT_READ, NOT_READ },
    { BOTH(rfc2822_lenient), "Fri, 21 Nov 1997 09:60:06 -0600", "byte 20: expected a minute from 00 to 59", NO_MOMENT, NOT_READ, NOT_READ },
    { BOTH(rfc2822_lenient), "Fri, 21 Nov 1997 09:55:61 -0600", "byte 23: expected a second from 00 to 60", NO_MOMENT, NOT_READ, NOT_READ },
    { BOTH(rfc2822_lenient), "Fri, 21 Nov 1997 09:55:06-0600", "byte 25: expected white space or a comment", NO_MOMENT, NOT_READ, NOT_READ },
    { BOTH(rfc2822_lenient), "Fri, 21 Nov 1997 09:55:06 CET", "byte 26: expected a zone that has a meaning", NO_MOMENT, NOT_READ, NOT_READ },
    { BOTH(rfc2822_lenient), "Fri, 21 Nov 1997 09:55:06 -0600 (CST", "byte 36: expected the end of a comment", NO_MOMENT, NOT_READ, NOT_READ },
    { BOTH(rfc2822_lenient), "Fri, 21 Nov 1997 09:55:06 -0600.", "byte 31: expected the end", NO_MOMENT, NOT_READ, NOT_READ },
    { BOTH(iso8601), "1997-11-12T09:55:06.120000000-06:00", NULL, { 1997, 11, 12, 9, 55, 6, 120000000, -6, 0, 0 }, { 879350106, 120000000 }, 0, 0 },
    { OWN(by_configuration), "1997-11-12T09:55:06.120-06:00", NULL, { 1997, 11, 12, 9, 55, 6, 120000000, -6, 0, 0 }, { 879350106, 120000000 }, 0, 0 },
    { OWN(by_configuration), "1997-11-31T09:55:06.120-06:00", "byte 9: expected the digit 0", NO_MOMENT, NOT_READ, NOT_READ },
    { OWN(by_description), "10/Oct/2000:13:55:36 -0700", NULL, { 2000, 10, 10, 13, 55, 36, 0, -7, 0, 0 }, { 971211336, 0 }, 0, 0 },
    { OWN(by_description), "10/Okt/2000:13:55:36 -0700", "byte 3: expected [month repr:short]", NO_MOMENT, NOT_READ, NOT_READ },
    { OWN(by_description), "31/Feb/2000:13:55:36 -0700", "byte 0: expected another [day], since no value has this one", NO_MOMENT, NOT_READ, NOT_READ },
    { OWN(by_description), "10/Oct/2000 13:55:36 -0700", "byte 11: expected `:`", NO_MOMENT, NOT_READ, NOT_READ },
    { OWN(by_description), "10/Oct/2000:13:55:36 -0000", "byte 21: expected `+`", NO_MOMENT, NOT_READ, NOT_READ },
    { OWN(without_offset), "2026-11-28 13:30:06", NULL, NO_MOMENT, NEVER, 0 },
    { OWN(by_date), "2026-11-28", NULL, NO_MOMENT, NEVER, NEVER },
    { OWN(by_nothing), "2026-11-28", NULL, NO_MOMENT, MOVALIREN_ERROR_BAD_ITEM, MOVALIREN_ERROR_BAD_ITEM },
};

static int is_same(const struct movaliren_moment *a, const struct movaliren_moment *b)
{
    return a->year == b->year && !memcmp(&a->month, &b->month, 5) && a->nanosecond == b->nanosecond
        && !memcmp(&a->offset_hours, &b->offset_hours, 3);
}

/* After an error the moment is unchanged, and the place is set by NOT_READ alone. */
static void try_reading(size_t row)
{
    static const struct movaliren_read_error no_place = { 77, 77, 77, 77, 77, 77 };
    static const struct movaliren_moment before = { -7, 7, 7, 7, 7, 7, 7, 7, 7, 7 };
    const char *text = readings[row].text, *words = readings[row].words;
    const size_t len = strlen(text);
    struct movaliren_moment moment = before;
    struct movaliren_utc_moment utc = { -7, 7 };
    struct movaliren_read_error place = no_place;
    const ptrdiff_t answer = readings[row].by_parts(len ? text : NULL, len, &moment, &place);
    expect(answer == readings[row].error, text, movaliren_strerror(answer));
    expect(is_same(&moment, answer ? &before : &readings[row].moment), text, "another moment");
    expect((place.at == 77) == (answer != NOT_READ), text, "another place");
    read_error = no_place;
    const ptrdiff_t in_utc = readings[row].in_utc(len ? text : NULL, len, &utc, &read_error);
    expect(in_utc == readings[row].error_in_utc, text, movaliren_strerror(in_utc));
    if (answer == 0)
        expect(utc.seconds == readings[row].utc.seconds && utc.nanosecond == readings[row].utc.nanosecond, text, "another second");
    expect((utc.seconds == -7) == (in_utc != 0), text, "a moment after an error");
    expect(answer != in_utc || !memcmp(&place, &read_error, sizeof(size_t) + 5), text, "another place in UTC");
    if (words)
        expect_text(read_strerror_r, words);
}

/* ---- descriptions, and why a text is none */

static const struct {
    ptrdiff_t (*parse)(struct movaliren_description *, const void *, size_t, struct movaliren_parse_error *);
    const char *text;
    size_t at;
    const char *words;
} faults[] = {
    { movaliren_description_parse, "[year", 0, "unclosed bracket at byte 0" },
    { movaliren_description_parse, "x\\y", 1, "invalid escape sequence at byte 1" },
    { movaliren_description_parse, "a[]", 2, "missing component name at byte 2" },
    { movaliren_description_parse, "[yaer]", 1, "unknown component at byte 1" },
    { movaliren_description_parse, "[day pad:none]", 5, "unknown modifier at byte 5" },
    { movaliren_description_parse, "[day padding:no]", 5, "invalid modifier value at byte 5" },
    { movaliren_description_parse, "[ignore]", 7, "missing modifier `count` at byte 7" },
    { movaliren_description_parse, "a[optional ]", 11, "missing list of items at byte 11" },
    { movaliren_description_parse, "[first [a] x]", 11, "unexpected text at byte 11" },
    { movaliren_description_parse_strftime, "%H:%", 3, "unfinished conversion `%` at byte 3" },
    { movaliren_description_parse_strftime, "at %Q", 4, "unknown conversion `%Q` at byte 4" },
    { movaliren_description_parse_strftime, "%\t", 1, "unknown conversion `%\\t` at byte 1" },
    { movaliren_description_parse_strftime, "%\xc3\xa9", 1, "unknown conversion `%\\xc3` at byte 1" },
    { movaliren_description_parse_strftime, "%T %Z", 4, "unsupported conversion `%Z` at byte 4" },
    { movaliren_description_parse_strftime, "%Ey", 1, "unsupported modifier `%E` at byte 1" },
    { movaliren_description_parse_strftime, "%5Y", 1, "unsupported field width `%5` at byte 1" },
    { movaliren_description_parse_strftime, "%^a", 1, "unsupported flag `%^` at byte 1" },
    { movaliren_description_parse_strftime, "%+", 1, "unsupported flag `%+` at byte 1" },
    { movaliren_description_parse_strftime, "%-0d", 2, "second flag `0` at byte 2" },
    { movaliren_description_parse_strftime, "%-F", 2, "no flag is allowed before `F` at byte 2" },
};

/* A text that is none leaves a description of nothing. */
static void expect_none(ptrdiff_t answer, ptrdiff_t error, const struct movaliren_description *left, const char *words)
{
    expect(answer == error, words, movaliren_strerror(answer));
    expect(movaliren_description_max_length(left) == MOVALIREN_ERROR_BAD_ITEM, words, "a description is left");
    expect_text(parse_strerror_r, words);
}

static void try_faults(void)
{
    struct movaliren_description left;
    char many[2 * 65], large[513];
    for (size_t i = 0; i < sizeof faults / sizeof *faults; i++) {
        memset(&left, 0xff, sizeof left);
        const ptrdiff_t answer = faults[i].parse(&left, faults[i].text, strlen(faults[i].text), &parse_error);
        expect(parse_error.at == faults[i].at && parse_error.items == 0, faults[i].text, "another byte");
        expect_none(answer, MOVALIREN_ERROR_BAD_DESCRIPTION, &left, faults[i].words);
    }
    for (int i = 0; i < 65; i++)
        memcpy(many + 2 * i, "%d", 2);
    expect(movaliren_description_parse_strftime(&left, many, 2 * 64, &parse_error) == 0
        && movaliren_description_max_length(&left) == 2 * 64, "64 items", "refused");
    expect_none(movaliren_description_parse_strftime(&left, many, sizeof many, &parse_error), MOVALIREN_ERROR_MANY_ITEMS,
        &left, "the description has 65 items");
    memset(large, 'x', sizeof large);
    expect(movaliren_description_parse(&left, large, 512, &parse_error) == 0 && movaliren_description_max_length(&left) == 512, "512 bytes", "refused");
    expect_none(movaliren_description_parse(&left, large, 513, &parse_error), MOVALIREN_ERROR_BUFFER_TOO_SMALL, &left,
        "the description has more than 512 bytes");
    expect(movaliren_description_parse(&left, NULL, 0, &parse_error) == 0 && movaliren_description_max_length(&left) == 0, "no text", "refused");
}

/* The description that was copied serves, also after its text has changed. */
static void make_descriptions(void)
{
    char text[] = "%d/%b/%Y:%H:%M:%S %z";
    struct movaliren_description first;
    expect(movaliren_description_parse_strftime(&first, text, strlen(text), &parse_error) == 0, text, "refused");
    memset(text, 'x', sizeof text);
    zoned_form = first;
    memset(&first, 0xff, sizeof first);
    expect(movaliren_description_parse(&date_form, "[year]-[month]-[day]", 20, &parse_error) == 0, "a date", "refused");
    expect(movaliren_description_parse_strftime(&form, "%Y-%m-%d %H:%M:%S", 17, &parse_error) == 0, "a time", "refused");
}

/* ---- lines of a column, which are the header's own */

enum { ROWS = 1000 };

/* Numbers that are not aligned, in each unit, and read backwards. */
static void try_columns(void)
{
    static const struct { enum movaliren_unit unit; int64_t number; const char *text; } rows[] = {
        { MOVALIREN_UNIT_SECOND, -1, "1969-12-31T23:59:59Z" }, { MOVALIREN_UNIT_MILLISECOND, -1, "1969-12-31T23:59:59.999Z" },
        { MOVALIREN_UNIT_MICROSECOND, -1000001, "1969-12-31T23:59:58.999999Z" },
        { MOVALIREN_UNIT_NANOSECOND, INT64_MIN, "1677-09-21T00:12:43.145224192Z" },
        { MOVALIREN_UNIT_NANOSECOND, INT64_MAX, "2262-04-11T23:47:16.854775807Z" },
    };
    const struct movaliren_lines lines = MOVALIREN_LINES(MOVALIREN_LINES_RFC3339);
    for (size_t i = 0; i < sizeof rows / sizeof *rows; i++) {
        char bytes[25] = "", buffer[80], wanted[80];
        const struct movaliren_column column = { bytes + 17, 2, -16, rows[i].unit };
        memcpy(bytes + 1, &rows[i].number, 8);
        memcpy(bytes + 17, &rows[i].number, 8);
        const struct movaliren_progress progress = movaliren_lines_column(&lines, &column, 0, buffer, sizeof buffer);
        snprintf(wanted, sizeof wanted, "%s\n%s\n", rows[i].text, rows[i].text);
        expect(progress.moments == 2 && progress.error == 0 && progress.bytes == strlen(wanted)
            && !memcmp(buffer, wanted, progress.bytes), rows[i].text, "another line");
    }
}

/* Buffers of any size give a file the same lines by each format, and each stop is told with its row. */
static void try_files(void)
{
    static int64_t numbers[ROWS];
    static char all[ROWS * 40], got[ROWS * 40], buffer[400];
    struct movaliren_column column = MOVALIREN_COLUMN(numbers, ROWS, MOVALIREN_UNIT_MILLISECOND);
    struct movaliren_progress progress;
    for (int row = 0; row < ROWS; row++)
        numbers[row] = (int64_t)row * 86399999 - 1000000000000;
    for (int format = 0; format <= 2 * MOVALIREN_LINES_DESCRIPTION; format++) {
        const struct movaliren_lines lines
            = { (enum movaliren_lines_format)(format / 2), &milliseconds, &form, format % 2, -3600, ';' };
        const struct movaliren_progress whole = movaliren_lines_column(&lines, &column, 0, all, sizeof all);
        expect(whole.error == (format < 2 ? MOVALIREN_ERROR_BAD_CONFIG : 0), "a column", movaliren_strerror(whole.error));
        expect(format < 2 || (whole.moments == ROWS && all[whole.bytes - 1] == ';'), "a column", "another end");
        FILE *file = tmpfile();
        progress = movaliren_lines_to_file(&lines, &column, file, buffer, 40 + 37 * (size_t)format);
        rewind(file);
        expect(progress.error == whole.error && progress.moments == whole.moments && progress.bytes == whole.bytes
            && fread(got, 1, sizeof got, file) == whole.bytes && !memcmp(got, all, whole.bytes), "a file", "other lines");
        fclose(file);
    }
    const struct movaliren_lines lines = MOVALIREN_LINES(MOVALIREN_LINES_RFC3339);
    FILE *refusing = fopen("/dev/null", "r"), *file = tmpfile();
    progress = movaliren_lines_to_file(&lines, &column, refusing, buffer, 64);
    expect(progress.error == 1 && progress.moments + progress.bytes == 0, "a file that refuses", "written");
    progress = movaliren_lines_to_file(&lines, &column, file, buffer, 24);
    expect(progress.error == MOVALIREN_ERROR_BUFFER_TOO_SMALL, "a small buffer", movaliren_strerror(progress.error));
    numbers[500] = INT64_MAX;
    progress = movaliren_lines_to_file(&lines, &column, file, buffer, 100);
    expect(progress.error == MOVALIREN_ERROR_MOMENT_SECONDS && progress.moments == 500, "a wrong row", "another row");
    fclose(refusing);
    fclose(file);
}

/* ---- arrays and the version */

static void try_arrays(void)
{
    char twenty[20], more[21], widest[MOVALIREN_ISO8601_WITH_SIZE], version[20];
    const struct movaliren_iso8601_config most = { 5, 1, 2, 255, 1, 1, 1, 0 };
    const unsigned number = movaliren_version();
    expect(MOVALIREN_TO_ARRAY(twenty, movaliren_rfc3339_utc, 0, 0) == MOVALIREN_ERROR_BUFFER_TOO_SMALL && !*twenty, "20 bytes", "written");
    expect(MOVALIREN_TO_ARRAY(more, movaliren_rfc3339_utc, 0, 0) == 20 && !strcmp(more, "1970-01-01T00:00:00Z"), "21 bytes", more);
    expect(MOVALIREN_TO_ARRAY(widest, movaliren_iso8601_with, &most, &parts) == sizeof widest - 1, "the widest text", widest);
    snprintf(version, sizeof version, "%u.%u.%u", number / 10000, number / 100 % 100, number % 100);
    expect(!strcmp(version, MOVALIREN_VERSION) && number == MOVALIREN_VERSION_NUMBER, "the version", version);
}

int main(void)
{
    try_texts();
    try_errors();
    make_descriptions();
    for (size_t row = 0; row < sizeof readings / sizeof *readings; row++)
        try_reading(row);
    try_faults();
    try_columns();
    try_arrays();
    expect(asked == 0, "a call", "has allocated");
    try_files();
    printf("checks: %d wrong\n", failures);
    return failures != 0;
}
