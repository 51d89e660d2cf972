/* Moments as text, by Movaliren's proved formatter. For Linux on x86-64 processors of the level
 * x86-64-v2 or above. pkg-config --cflags --libs movaliren prints the flags of an installed library.
 * Between -Wl,-Bstatic and -Wl,-Bdynamic they link the static one, of which -Wl,--gc-sections keeps what is called.
 *
 *     char line[MOVALIREN_RFC3339_SIZE];
 *     ptrdiff_t n = MOVALIREN_TO_ARRAY(
 *         line, movaliren_rfc3339_utc, now.tv_sec, (uint32_t)now.tv_nsec);
 *     puts(n < 0 ? movaliren_strerror(n) : line);
 *
 * Here stand the formats, reading, descriptions, errors of texts in words, and lines of a column, in this order.
 *
 * A call that writes one text returns the number of bytes that it wrote to the start of the `buffer`. These are the
 * whole text, without a zero at the end; the bytes after them are unchanged. Or it returns a negative
 * movaliren_error, and the buffer is unchanged. A number out of its range is an error, and is never changed to one in
 * range. A call keeps nothing outside of its arguments and prints nothing. Threads may call at the same time without a
 * lock.
 *
 * A text that does not fit the buffer is MOVALIREN_ERROR_BUFFER_TOO_SMALL. A buffer of MOVALIREN_RFC3339_SIZE bytes
 * holds each text of RFC 3339 with a zero after it, and the other formats have such numbers. No text of a description
 * has more bytes than movaliren_description_max_length returns.
 *
 * No call allocates or takes a lock, so each may be made from a signal handler, and in the forked child of a process
 * with threads, but for movaliren_lines_to_file, which calls fwrite.
 *
 * A call takes at most so many bytes of the stack, as the program stack.c measures: 512 for RFC 3339 and RFC 2822; 1,024
 * for ISO 8601, a stamp, and reading RFC 3339 and RFC 2822; 2,048 for reading ISO 8601, and for a text by a description;
 * 4,096 for any other.
 *
 * A pointer to a buffer or a text may be null where its length is 0. Other pointers must not be null, as the
 * compiler is told. No length may be more than its array has, and no array may have more than PTRDIFF_MAX bytes. What
 * a call writes to must not overlap anything else that it is given. All fields of what it reads must be set.
 *
 * The header is C99 and C++17. What ends in an underscore is for this header alone. The soname libmovaliren.so.0 stands
 * for the layout of each struct and the meaning of each call: a field more, or another meaning of a number, has another
 * soname. A later version of one soname may have more calls and more numbers. */
#ifndef MOVALIREN_H
#define MOVALIREN_H

#include <stddef.h>
#include <stdint.h>
#include <stdio.h>
#include <string.h>

#define MOVALIREN_VERSION "0.1.0"

/* The same as one number, for #if: 10,000 for the first part, 100 for the second, and the third. */
#define MOVALIREN_VERSION_NUMBER 100

/* What the compiler is told of a function. */
#ifdef __GNUC__
#define MOVALIREN_NONNULL_(argument) __attribute__((__nonnull__(argument)))
#define MOVALIREN_CHECKED_ __attribute__((__warn_unused_result__))
#else
#define MOVALIREN_NONNULL_(argument)
#define MOVALIREN_CHECKED_
#endif

/* The number of elements of an array. A pointer in its place does not compile. */
#ifdef __cplusplus
extern "C++" {
template <class Element, size_t Count> constexpr size_t movaliren_count_(const Element (&)[Count])
{
    return Count;
}
}
#define MOVALIREN_COUNT_(array) movaliren_count_(array)
#elif defined(__GNUC__)
#define MOVALIREN_COUNT_(array)                                                        \
    (sizeof(array) / sizeof *(array)                                                   \
        / sizeof(char[1 - 2 * __builtin_types_compatible_p(__typeof__(array), __typeof__(&*(array)))]))
#else
#define MOVALIREN_COUNT_(array) (sizeof(array) / sizeof *(array))
#endif

#ifdef __cplusplus
#pragma GCC diagnostic push
#pragma GCC diagnostic ignored "-Wold-style-cast"
extern "C" {
#endif

enum movaliren_error {
    MOVALIREN_ERROR_YEAR = -1,
    MOVALIREN_ERROR_MONTH = -2,
    MOVALIREN_ERROR_DAY = -3,
    MOVALIREN_ERROR_HOUR = -4,
    MOVALIREN_ERROR_MINUTE = -5,
    MOVALIREN_ERROR_SECOND = -6,
    MOVALIREN_ERROR_NANOSECOND = -7,
    MOVALIREN_ERROR_OFFSET_HOURS = -8,
    MOVALIREN_ERROR_OFFSET_MINUTES = -9,
    MOVALIREN_ERROR_OFFSET_SECONDS = -10,
    MOVALIREN_ERROR_MOMENT_SECONDS = -11,
    MOVALIREN_ERROR_FORMAT_YEAR = -12,
    MOVALIREN_ERROR_FORMAT_OFFSET_HOUR = -13,
    MOVALIREN_ERROR_FORMAT_OFFSET_MINUTE = -14,
    MOVALIREN_ERROR_FORMAT_OFFSET_SECOND = -15,
    MOVALIREN_ERROR_INSUFFICIENT = -16,
    MOVALIREN_ERROR_OUT_OF_RANGE = -17,
    MOVALIREN_ERROR_BAD_CONFIG = -18,
    MOVALIREN_ERROR_BAD_ITEM = -19,
    /* a format says by its MOVALIREN_.._SIZE how much is enough, and a description by
     * movaliren_description_max_length */
    MOVALIREN_ERROR_BUFFER_TOO_SMALL = -20,
    MOVALIREN_ERROR_NOT_READ = -23,
    MOVALIREN_ERROR_BAD_DESCRIPTION = -24,
    MOVALIREN_ERROR_MANY_ITEMS = -25,
    MOVALIREN_ERROR_UNDETERMINED = -26
};

/* The version of the library that the program runs with, as a number like MOVALIREN_VERSION_NUMBER. */
uint32_t movaliren_version(void);

/* Writes the error in words, which are those of movaliren_strerror, for programs that cannot call what stands in a
 * header alone. As of any text no zero is written after it. Of a number that is no movaliren_error these are "no error"
 * or "unknown error". A buffer of 200 bytes holds any of them. */
ptrdiff_t movaliren_strerror_r(ptrdiff_t error, void *buffer, size_t buffer_size);

/* The error in words. */
static inline const char *movaliren_strerror(ptrdiff_t error)
{
    switch (error) {
    case MOVALIREN_ERROR_YEAR: return "the year is outside -999999 to 999999";
    case MOVALIREN_ERROR_MONTH: return "the month is outside 1 to 12";
    case MOVALIREN_ERROR_DAY: return "the month has no such day";
    case MOVALIREN_ERROR_HOUR: return "the hour is outside 0 to 23";
    case MOVALIREN_ERROR_MINUTE: return "the minute is outside 0 to 59";
    case MOVALIREN_ERROR_SECOND: return "the second is outside 0 to 59";
    case MOVALIREN_ERROR_NANOSECOND: return "the nanosecond is outside 0 to 999999999";
    case MOVALIREN_ERROR_OFFSET_HOURS: return "the hours of the offset are outside -25 to 25";
    case MOVALIREN_ERROR_OFFSET_MINUTES: return "the minutes of the offset are outside -59 to 59, or of another sign than its hours";
    case MOVALIREN_ERROR_OFFSET_SECONDS: return "the seconds of the offset are outside -59 to 59, or of another sign than its hours or minutes";
    case MOVALIREN_ERROR_MOMENT_SECONDS: return "the seconds are outside the years -999999 to 999999";
    case MOVALIREN_ERROR_FORMAT_YEAR: return "the format cannot represent the year";
    case MOVALIREN_ERROR_FORMAT_OFFSET_HOUR: return "the format cannot represent the hours of the offset";
    case MOVALIREN_ERROR_FORMAT_OFFSET_MINUTE: return "the format cannot represent the minutes of the offset";
    case MOVALIREN_ERROR_FORMAT_OFFSET_SECOND: return "the format cannot represent the seconds of the offset";
    case MOVALIREN_ERROR_INSUFFICIENT: return "the value lacks a component of the format";
    case MOVALIREN_ERROR_OUT_OF_RANGE: return "a component is outside the range of its item";
    case MOVALIREN_ERROR_BAD_CONFIG: return "invalid configuration value";
    case MOVALIREN_ERROR_BAD_ITEM: return "invalid item";
    case MOVALIREN_ERROR_BUFFER_TOO_SMALL: return "the text does not fit the buffer";
    case MOVALIREN_ERROR_NOT_READ: return "the text is not one of the format";
    case MOVALIREN_ERROR_BAD_DESCRIPTION: return "the text is not a description";
    case MOVALIREN_ERROR_MANY_ITEMS: return "the description has more items than there is room for";
    case MOVALIREN_ERROR_UNDETERMINED: return "the texts do not determine a moment";
    default: return error < 0 ? "unknown error" : "no error";
    }
}

/* Ends the text that a call wrote by a zero, and returns what the call returned. After an error it is empty. */
static inline ptrdiff_t movaliren_terminate(char *line, ptrdiff_t count)
{
    line[count < 0 ? 0 : count] = 0;
    return count;
}

/* Calls the function with these arguments and an array of char, less one byte, as its buffer, and ends the text
 * by a zero. A pointer in the place of the array does not compile. */
#define MOVALIREN_TO_ARRAY(array, function, ...)                                       \
    movaliren_terminate(array, function(__VA_ARGS__, array, MOVALIREN_COUNT_(array) - 1))

/* A buffer of this many bytes is large enough for each text of the format and a zero after it: the ones of
 * MOVALIREN_ISO8601_SIZE by any configuration with at most nine decimals, and of MOVALIREN_ISO8601_WITH_SIZE by any. */
enum {
    MOVALIREN_RFC3339_SIZE = 36,
    MOVALIREN_RFC2822_SIZE = 32,
    MOVALIREN_IMF_FIXDATE_SIZE = 30,
    MOVALIREN_ISO8601_SIZE = 36,
    MOVALIREN_ISO8601_WITH_SIZE = 285,
    MOVALIREN_STAMP_SIZE = 31
};

/* ---- moments */

/* A local date and time, and its offset from UTC. The parts of the offset have one sign: half past five
 * behind UTC is -5 and -30. A part of the opposite sign of one before it is the error of that part. Parts
 * are tested in the order date, time, offset. */
struct movaliren_moment {
    int32_t year;          /* -999999 to 999999 */
    uint8_t month;         /* 1 to 12 */
    uint8_t day;           /* 1 to the last day of the month */
    uint8_t hour;          /* 0 to 23 */
    uint8_t minute;        /* 0 to 59 */
    uint8_t second;        /* 0 to 59: a leap second is an error */
    uint32_t nanosecond;   /* 0 to 999999999 */
    int8_t offset_hours;   /* -25 to 25 */
    int8_t offset_minutes; /* -59 to 59, not of the opposite sign of offset_hours */
    int8_t offset_seconds; /* -59 to 59, not of the opposite sign of either */
};

/* The seconds since 1970-01-01T00:00:00 UTC without leap seconds, of the years -999999 to 999999, and
 * the nanosecond, 0 to 999999999, counted forward from there: half a second before 1970 is -1 and
 * 500000000. */
struct movaliren_utc_moment {
    int64_t seconds;
    uint32_t nanosecond;
};

/* A format represents these moments. Of any other the first that it cannot represent is the error:
 * MOVALIREN_ERROR_FORMAT_YEAR, _OFFSET_HOUR, _OFFSET_SECOND or _OFFSET_MINUTE, in this order.
 *
 *               years           offsets
 *     RFC 3339  0 to 9999       whole minutes, less than 24 hours either way
 *     RFC 2822  1900 to 9999    whole minutes
 *     HTTP      0 to 9999       UTC alone
 *     ISO 8601  0 to 9999       whole minutes (by default)
 *     a stamp   0 to 9999       UTC alone */

/* RFC 3339, as 1985-04-12T23:20:50.52Z. The decimals are as many as are needed, and none for a whole
 * second. */
ptrdiff_t movaliren_rfc3339(const struct movaliren_moment *moment, void *buffer, size_t buffer_size)
    MOVALIREN_NONNULL_(1);

/* RFC 2822, as Fri, 21 Nov 1997 09:55:06 -0600. The nanosecond is not written. */
ptrdiff_t movaliren_rfc2822(const struct movaliren_moment *moment, void *buffer, size_t buffer_size)
    MOVALIREN_NONNULL_(1);

/* The date of HTTP (RFC 9110, section 5.6.7), as Sun, 06 Nov 1994 08:49:37 GMT. The nanosecond is not written. */
ptrdiff_t movaliren_imf_fixdate(const struct movaliren_moment *moment, void *buffer, size_t buffer_size)
    MOVALIREN_NONNULL_(1);

/* ISO 8601 by default, as 1997-11-12T09:55:06.000000000-06:00. */
ptrdiff_t movaliren_iso8601(const struct movaliren_moment *moment, void *buffer, size_t buffer_size)
    MOVALIREN_NONNULL_(1);

/* A stamp, as 1997-11-12T15:55:06.000000000Z, of 30 bytes. Stamps sort by bytes as their moments do. */
ptrdiff_t movaliren_stamp_utc(int64_t seconds, uint32_t nanosecond, void *buffer, size_t buffer_size);

/* ---- configurations of ISO 8601 */

enum movaliren_iso8601_parts {
    MOVALIREN_ISO8601_PARTS_DATE = 1,
    MOVALIREN_ISO8601_PARTS_TIME = 2,
    MOVALIREN_ISO8601_PARTS_OFFSET = 3,
    MOVALIREN_ISO8601_PARTS_DATE_TIME = 4,
    MOVALIREN_ISO8601_PARTS_DATE_TIME_OFFSET = 5,
    MOVALIREN_ISO8601_PARTS_TIME_OFFSET = 6
};

enum movaliren_iso8601_date {
    MOVALIREN_ISO8601_BY_CALENDAR = 0,
    MOVALIREN_ISO8601_BY_WEEK = 1,
    MOVALIREN_ISO8601_BY_ORDINAL = 2
};

enum movaliren_iso8601_to {
    MOVALIREN_ISO8601_TO_HOUR = 0,
    MOVALIREN_ISO8601_TO_MINUTE = 1,
    MOVALIREN_ISO8601_TO_SECOND = 2
};

/* Another number than these is MOVALIREN_ERROR_BAD_CONFIG, and so is a configuration of zeros alone. */
struct movaliren_iso8601_config {
    uint8_t parts;              /* movaliren_iso8601_parts */
    uint8_t date_kind;          /* movaliren_iso8601_date */
    uint8_t time_precision;     /* movaliren_iso8601_to: the last part of the time */
    uint8_t decimals;           /* of that part, not rounded: 0 for none, or 1 to 255 */
    uint8_t offset_precision;   /* MOVALIREN_ISO8601_TO_MINUTE, or MOVALIREN_ISO8601_TO_HOUR for whole hours alone */
    uint8_t use_separators;     /* 0 or 1 */
    uint8_t year_is_six_digits; /* 0 for the years 0 to 9999, 1 for a sign and six digits */
    uint8_t comma;              /* before the decimals: 0 for a point, 1 for a comma */
};

/* The configuration of movaliren_iso8601 with another number of decimals, as an initialiser: with 3 it
 * writes milliseconds with their zeros, as 1997-11-12T15:55:06.120Z. */
#define MOVALIREN_ISO8601_DECIMALS(number)                                                           \
    { MOVALIREN_ISO8601_PARTS_DATE_TIME_OFFSET, MOVALIREN_ISO8601_BY_CALENDAR, MOVALIREN_ISO8601_TO_SECOND, number, \
        MOVALIREN_ISO8601_TO_MINUTE, 1, 0, 0 }

#define MOVALIREN_ISO8601_DEFAULT MOVALIREN_ISO8601_DECIMALS(9)

/* ISO 8601 by a configuration, whose numbers are tested before the moment. */
ptrdiff_t movaliren_iso8601_with(const struct movaliren_iso8601_config *config, const struct movaliren_moment *moment,
    void *buffer, size_t buffer_size) MOVALIREN_NONNULL_(1) MOVALIREN_NONNULL_(2);

/* ---- moments as clocks give them: seconds and a nanosecond, as in movaliren_utc_moment */

/* A moment in UTC, with Z, +0000 or GMT for the offset. */
ptrdiff_t movaliren_rfc3339_utc(int64_t seconds, uint32_t nanosecond, void *buffer, size_t buffer_size);
ptrdiff_t movaliren_rfc2822_utc(int64_t seconds, uint32_t nanosecond, void *buffer, size_t buffer_size);
ptrdiff_t movaliren_imf_fixdate_utc(int64_t seconds, uint32_t nanosecond, void *buffer, size_t buffer_size);
ptrdiff_t movaliren_iso8601_utc(int64_t seconds, uint32_t nanosecond, void *buffer, size_t buffer_size);

/* ISO 8601 by a configuration, of a moment in UTC. With three decimals it is the time of a line of a log, as
 * 1997-11-12T15:55:06.120Z.
 *
 *     static const struct movaliren_iso8601_config milliseconds = MOVALIREN_ISO8601_DECIMALS(3);
 *     n = MOVALIREN_TO_ARRAY(
 *         line, movaliren_iso8601_with_utc, &milliseconds, now.tv_sec, (uint32_t)now.tv_nsec); */
ptrdiff_t movaliren_iso8601_with_utc(const struct movaliren_iso8601_config *config, int64_t seconds,
    uint32_t nanosecond, void *buffer, size_t buffer_size) MOVALIREN_NONNULL_(1);

/* A moment by its local date and time, which is this many seconds ahead of UTC, as tm_gmtoff. An offset
 * of more than 25:59:59 either way is MOVALIREN_ERROR_OFFSET_HOURS. The formats refuse an offset with
 * seconds. The moment is tested first, then the offset. A local date outside the years -999999 to 999999
 * is MOVALIREN_ERROR_FORMAT_YEAR. */
ptrdiff_t movaliren_rfc3339_local(int64_t seconds, uint32_t nanosecond, int64_t offset, void *buffer,
    size_t buffer_size);
ptrdiff_t movaliren_rfc2822_local(int64_t seconds, uint32_t nanosecond, int64_t offset, void *buffer,
    size_t buffer_size);
ptrdiff_t movaliren_iso8601_local(int64_t seconds, uint32_t nanosecond, int64_t offset, void *buffer,
    size_t buffer_size);

/* ISO 8601 by a configuration, of a moment by its local date and time. With three decimals it is the time of a
 * line of a log, as 1997-11-12T16:55:06.120+01:00.
 *
 *     struct tm local;
 *     localtime_r(&now.tv_sec, &local);
 *     n = MOVALIREN_TO_ARRAY(line, movaliren_iso8601_with_local, &milliseconds, now.tv_sec,
 *         (uint32_t)now.tv_nsec, local.tm_gmtoff); */
ptrdiff_t movaliren_iso8601_with_local(const struct movaliren_iso8601_config *config, int64_t seconds,
    uint32_t nanosecond, int64_t offset, void *buffer, size_t buffer_size) MOVALIREN_NONNULL_(1);

/* ---- texts, read back */

/* Where a text could not be read. By RFC 3339 it is the first byte with which no text of the format goes on, or the end of
 * a text that is too short. By RFC 2822 and by a description it is where the part should begin that could have come, or the
 * first byte that is written otherwise. movaliren_read_strerror_r says what could have come there. */
struct movaliren_read_error {
    size_t at;            /* the number of bytes that are right */
    uint8_t expected;     /* what could have come after them, by a number for movaliren_read_strerror_r alone */
    uint8_t first, last;  /* what belongs to that number */
    uint8_t is_lenient;   /* the same */
    uint8_t is_second_60; /* 1 where second 60 stands there, which a leap second has and no moment, else 0 */
};

/* Reads a text of RFC 3339, section 5.6: capital letters, one to nine decimals or none, no second 60, and not
 * the offset -00:00. Returns 0 if the text was read, and the error is then unchanged. Of any other text it
 * returns MOVALIREN_ERROR_NOT_READ and sets the error; the moment is then unchanged.
 *
 *     struct movaliren_moment moment;
 *     struct movaliren_read_error error;
 *     char words[MOVALIREN_WORDS_SIZE];
 *     if (movaliren_read_rfc3339(text, strlen(text), &moment, &error) < 0) {
 *         MOVALIREN_TO_ARRAY(words, movaliren_read_strerror_r, &error);
 *         fprintf(stderr, "%s: %s\n", text, words);
 *     } */
ptrdiff_t movaliren_read_rfc3339(const void *text, size_t text_len, struct movaliren_moment *moment,
    struct movaliren_read_error *error) MOVALIREN_NONNULL_(3) MOVALIREN_NONNULL_(4) MOVALIREN_CHECKED_;
ptrdiff_t movaliren_read_rfc3339_utc(const void *text, size_t text_len, struct movaliren_utc_moment *moment,
    struct movaliren_read_error *error) MOVALIREN_NONNULL_(3) MOVALIREN_NONNULL_(4) MOVALIREN_CHECKED_;

/* Reads such a text of another program too: with a small t or z, with more than nine decimals, of which the
 * first nine count, or with the offset -00:00 of an unknown local time, which is read as UTC. */
ptrdiff_t movaliren_read_rfc3339_lenient(const void *text, size_t text_len, struct movaliren_moment *moment,
    struct movaliren_read_error *error) MOVALIREN_NONNULL_(3) MOVALIREN_NONNULL_(4) MOVALIREN_CHECKED_;
ptrdiff_t movaliren_read_rfc3339_lenient_utc(const void *text, size_t text_len, struct movaliren_utc_moment *moment,
    struct movaliren_read_error *error) MOVALIREN_NONNULL_(3) MOVALIREN_NONNULL_(4) MOVALIREN_CHECKED_;

/* Reads a text of RFC 2822, section 3.3, in the form that movaliren_rfc2822 writes: 31 bytes, with the weekday of the date,
 * single spaces, a year from 1900 on, an offset by its hours 00 to 25 and its minutes, no second 60, and not the offset
 * -0000. Where the name of the weekday alone is wrong, the error is at byte 0. The error of any other text is that of
 * movaliren_read_rfc2822_lenient, or the first byte at which movaliren_rfc2822 writes its moment otherwise.
 *
 *     struct movaliren_utc_moment sent;
 *     struct movaliren_read_error error;
 *     if (movaliren_read_rfc2822_utc(text, strlen(text), &sent, &error) < 0)
 *         fprintf(stderr, "wrong at byte %zu\n", error.at); */
ptrdiff_t movaliren_read_rfc2822(const void *text, size_t text_len, struct movaliren_moment *moment,
    struct movaliren_read_error *error) MOVALIREN_NONNULL_(3) MOVALIREN_NONNULL_(4) MOVALIREN_CHECKED_;
ptrdiff_t movaliren_read_rfc2822_utc(const void *text, size_t text_len, struct movaliren_utc_moment *moment,
    struct movaliren_read_error *error) MOVALIREN_NONNULL_(3) MOVALIREN_NONNULL_(4) MOVALIREN_CHECKED_;

/* Reads a date of mail or of a feed. Beside what movaliren_read_rfc2822 takes these are the obsolete forms of RFC 5322,
 * section 4.3, and what mailers write: white space and comments, which may nest, between the parts; letters in either
 * case; a day of one digit; a year of three digits, which are added to 1900, or of two, of 1950 to 2049; no weekday; no
 * seconds; zones by name and by letter, where each letter but J is UTC; and -0000, which is UTC too. Second 60 is read as
 * second 59. A weekday that is not the date's is refused, and so is a zone without a meaning, as CET. */
ptrdiff_t movaliren_read_rfc2822_lenient(const void *text, size_t text_len, struct movaliren_moment *moment,
    struct movaliren_read_error *error) MOVALIREN_NONNULL_(3) MOVALIREN_NONNULL_(4) MOVALIREN_CHECKED_;
ptrdiff_t movaliren_read_rfc2822_lenient_utc(const void *text, size_t text_len, struct movaliren_utc_moment *moment,
    struct movaliren_read_error *error) MOVALIREN_NONNULL_(3) MOVALIREN_NONNULL_(4) MOVALIREN_CHECKED_;

/* Reads a text of ISO 8601 that movaliren_iso8601 writes: with nine decimals, and with Z for UTC. */
ptrdiff_t movaliren_read_iso8601(const void *text, size_t text_len, struct movaliren_moment *moment,
    struct movaliren_read_error *error) MOVALIREN_NONNULL_(3) MOVALIREN_NONNULL_(4) MOVALIREN_CHECKED_;
ptrdiff_t movaliren_read_iso8601_utc(const void *text, size_t text_len, struct movaliren_utc_moment *moment,
    struct movaliren_read_error *error) MOVALIREN_NONNULL_(3) MOVALIREN_NONNULL_(4) MOVALIREN_CHECKED_;

/* Reads a text of ISO 8601 that movaliren_iso8601_with writes by this configuration of a moment whose finer parts are zero.
 * The configuration writes a date, a time and an offset: any other one is MOVALIREN_ERROR_UNDETERMINED. The call that ends in
 * _utc needs no offset: where the configuration writes none, the date and the time are those of UTC. The configuration is
 * tested first, and the error is then unchanged. */
ptrdiff_t movaliren_read_iso8601_with(const struct movaliren_iso8601_config *config, const void *text, size_t text_len,
    struct movaliren_moment *moment, struct movaliren_read_error *error) MOVALIREN_NONNULL_(1) MOVALIREN_NONNULL_(4)
    MOVALIREN_NONNULL_(5) MOVALIREN_CHECKED_;
ptrdiff_t movaliren_read_iso8601_with_utc(const struct movaliren_iso8601_config *config, const void *text,
    size_t text_len, struct movaliren_utc_moment *moment, struct movaliren_read_error *error) MOVALIREN_NONNULL_(1)
    MOVALIREN_NONNULL_(4) MOVALIREN_NONNULL_(5) MOVALIREN_CHECKED_;

/* ---- descriptions
 *
 * A description is made once from a text, in brackets as [year]-[month]-[day] or in the syntax of strftime. Then it
 * formats any number of moments, and reads their texts.
 *
 *     struct movaliren_description form;
 *     struct movaliren_parse_error error;
 *     static const char mail[] = "%a, %d %b %Y %H:%M:%S";
 *     if (movaliren_description_parse_strftime(&form, mail, sizeof mail - 1, &error) < 0)
 *         fprintf(stderr, "wrong at byte %zu\n", error.at);
 *     n = MOVALIREN_TO_ARRAY(text, movaliren_description_format_utc, &form, now.tv_sec, (uint32_t)now.tv_nsec); */

/* A description, with the text that it was made of: no memory and no pointer belongs to it, and it may be copied. Its
 * fields are for the library alone. One that was not made of a text, as one of zeros alone, is MOVALIREN_ERROR_BAD_ITEM in
 * each call but the two that make one. */
struct movaliren_description {
    size_t unused_, texts_len_;
    uint32_t kinds_, way_;
    struct {
        uint32_t kind;
        uint8_t padding, flag, digits, byte;
        size_t start, len;
    } items_[64];
    uint8_t texts_[512];
};

/* Why a text is no description. */
struct movaliren_parse_error {
    size_t at;    /* the index of the byte that is wrong, or the most bytes that a text may have */
    size_t items; /* after MOVALIREN_ERROR_MANY_ITEMS how many items there are, else 0 */
    uint8_t kind; /* what is wrong, by a number for movaliren_parse_strerror_r alone, or 0 */
    uint8_t byte; /* the byte that the words name, or 0 */
};

/* Makes a description of a text in brackets, as [year]-[month]-[day], or in the syntax of strftime. Returns 0, or the error
 * and sets the parse error: MOVALIREN_ERROR_BAD_DESCRIPTION; MOVALIREN_ERROR_MANY_ITEMS for more than 64 items; or
 * MOVALIREN_ERROR_BUFFER_TOO_SMALL for a text of more than 512 bytes. The description then has no text of any moment.
 *
 * In brackets a component is one item, an escaped byte is one, and so is the text between two of these. The items of an
 * `optional` stand in its place, and of a `first` those of its first list. A conversion of strftime is at most 13 items,
 * as %c is, and the text between two conversions is one. */
ptrdiff_t movaliren_description_parse(struct movaliren_description *description, const void *text, size_t text_len,
    struct movaliren_parse_error *error) MOVALIREN_NONNULL_(1) MOVALIREN_NONNULL_(4) MOVALIREN_CHECKED_;
ptrdiff_t movaliren_description_parse_strftime(struct movaliren_description *description, const void *text,
    size_t text_len, struct movaliren_parse_error *error) MOVALIREN_NONNULL_(1) MOVALIREN_NONNULL_(4)
    MOVALIREN_CHECKED_;

/* Whether any item is a component. A text in the other syntax mostly has none, as "%Y" in brackets: it writes itself. */
static inline int movaliren_description_has_component(const struct movaliren_description *description)
{
    for (size_t i = 0; i + description->unused_ < 64; i++)
        if (description->items_[i].kind > 0 && description->items_[i].kind < 254)
            return 1;
    return 0;
}

/* The text by the description: movaliren_description_format takes a moment with its parts, the call that ends in _utc one
 * in UTC, that in _local one at an offset, and that in _date a date. A year that its component refuses is
 * MOVALIREN_ERROR_OUT_OF_RANGE. A date has no time, no offset and no seconds since 1970: a component of these is
 * MOVALIREN_ERROR_INSUFFICIENT. */
ptrdiff_t movaliren_description_format(const struct movaliren_description *description,
    const struct movaliren_moment *moment, void *buffer, size_t buffer_size) MOVALIREN_NONNULL_(1)
    MOVALIREN_NONNULL_(2);
ptrdiff_t movaliren_description_format_utc(const struct movaliren_description *description, int64_t seconds,
    uint32_t nanosecond, void *buffer, size_t buffer_size) MOVALIREN_NONNULL_(1);
ptrdiff_t movaliren_description_format_local(const struct movaliren_description *description, int64_t seconds,
    uint32_t nanosecond, int64_t offset, void *buffer, size_t buffer_size) MOVALIREN_NONNULL_(1);
ptrdiff_t movaliren_description_format_date(const struct movaliren_description *description, int32_t year,
    uint8_t month, uint8_t day, void *buffer, size_t buffer_size) MOVALIREN_NONNULL_(1);

/* The sum of the most bytes that each item has: a buffer of this many holds any text of the description. */
ptrdiff_t movaliren_description_max_length(const struct movaliren_description *description) MOVALIREN_NONNULL_(1);

/* Reads a text that the description writes of a moment. Nothing else is read: a text with another weekday than that of its
 * date, or with zeros or spaces that the description does not write, is MOVALIREN_ERROR_NOT_READ, and the error says where.
 * What no text shows of a time of day or of an offset behind the last part that is shown is zero. movaliren_description_read
 * takes a description of a date or of Unix time, with a time of day and an offset. The call that ends in _utc also takes
 * one without an offset, whose texts are then in UTC. Any other description is MOVALIREN_ERROR_UNDETERMINED, and so is one
 * with a number of no certain width before another one, as %-d%-m. The error is unchanged then, as where a text is read. */
ptrdiff_t movaliren_description_read(const struct movaliren_description *description, const void *text, size_t text_len,
    struct movaliren_moment *moment, struct movaliren_read_error *error) MOVALIREN_NONNULL_(1) MOVALIREN_NONNULL_(4)
    MOVALIREN_NONNULL_(5) MOVALIREN_CHECKED_;
ptrdiff_t movaliren_description_read_utc(const struct movaliren_description *description, const void *text,
    size_t text_len, struct movaliren_utc_moment *moment, struct movaliren_read_error *error) MOVALIREN_NONNULL_(1)
    MOVALIREN_NONNULL_(4) MOVALIREN_NONNULL_(5) MOVALIREN_CHECKED_;

/* ---- errors of texts in words */

/* A buffer of this many bytes holds the words of any error with a zero after them. */
enum { MOVALIREN_WORDS_SIZE = 129 };

/* Writes where a text could not be read, and what could have come there, as "byte 9: expected a digit from 0 to 8". The
 * error is one that a call set. */
ptrdiff_t movaliren_read_strerror_r(const struct movaliren_read_error *error, void *buffer, size_t buffer_size)
    MOVALIREN_NONNULL_(1);

/* Writes why a text is no description, as "unknown conversion `%Q` at byte 1". The error is one that a call set. */
ptrdiff_t movaliren_parse_strerror_r(const struct movaliren_parse_error *error, void *buffer, size_t buffer_size)
    MOVALIREN_NONNULL_(1);

/* ---- a description that is read for one text */

/* The text of a moment by a description in brackets of at most 64 items, which is read for this one text. The errors
 * are those of movaliren_description_parse, and then those of movaliren_description_format_utc or _format_local.
 *
 *     static const char day[] = "[day] [month repr:long]";
 *     n = movaliren_format_brackets_utc(day, sizeof day - 1, now.tv_sec, 0, line, sizeof line); */
ptrdiff_t movaliren_format_brackets_utc(const void *text, size_t text_len, int64_t seconds, uint32_t nanosecond,
    void *buffer, size_t buffer_size);
ptrdiff_t movaliren_format_brackets_local(const void *text, size_t text_len, int64_t seconds, uint32_t nanosecond,
    int64_t offset, void *buffer, size_t buffer_size);

/* The text of a moment by a description in the syntax of strftime of at most 64 items, which is read for this one text.
 * The errors are those of movaliren_description_parse_strftime, and then those of movaliren_description_format_utc or
 * _format_local.
 *
 *     static const char day[] = "%d %B";
 *     n = movaliren_format_strftime_utc(day, sizeof day - 1, now.tv_sec, 0, line, sizeof line); */
ptrdiff_t movaliren_format_strftime_utc(const void *text, size_t text_len, int64_t seconds, uint32_t nanosecond,
    void *buffer, size_t buffer_size);
ptrdiff_t movaliren_format_strftime_local(const void *text, size_t text_len, int64_t seconds, uint32_t nanosecond,
    int64_t offset, void *buffer, size_t buffer_size);

/* ---- lines of a column of integers, to a buffer or a file: each line by one call
 *
 *     struct movaliren_lines lines = MOVALIREN_LINES(MOVALIREN_LINES_ISO8601);
 *     struct movaliren_column column = MOVALIREN_COLUMN(numbers, 1000, MOVALIREN_UNIT_MILLISECOND);
 *     char buffer[4096];
 *     lines.config = &milliseconds;
 *     struct movaliren_progress progress = movaliren_lines_to_file(&lines, &column, stdout, buffer, sizeof buffer);
 *     if (progress.error)
 *         fprintf(stderr, "row %zu: %s\n", progress.moments, movaliren_strerror(progress.error)); */

/* The format of a line. */
enum movaliren_lines_format {
    MOVALIREN_LINES_RFC3339 = 1,
    MOVALIREN_LINES_RFC2822 = 2,
    MOVALIREN_LINES_ISO8601 = 3,    /* by `config` */
    MOVALIREN_LINES_DESCRIPTION = 4 /* by `description` */
};

/* What each line is: the text of a moment in UTC, or by its local date and time, which is so many seconds ahead of UTC, and
 * the byte `end` after it. */
struct movaliren_lines {
    enum movaliren_lines_format format;
    const struct movaliren_iso8601_config *config;
    const struct movaliren_description *description;
    int is_local; /* 0 for UTC, or 1 for the offset */
    int64_t offset;
    uint8_t end;
};

/* Lines in UTC that end with a line feed, as an initialiser. */
#define MOVALIREN_LINES(format) { format, NULL, NULL, 0, 0, '\n' }

/* How many of a number of a column are a second. */
enum movaliren_unit {
    MOVALIREN_UNIT_SECOND = 1,
    MOVALIREN_UNIT_MILLISECOND = 1000,
    MOVALIREN_UNIT_MICROSECOND = 1000000,
    MOVALIREN_UNIT_NANOSECOND = 1000000000
};

/* A column of numbers since 1970-01-01T00:00:00 UTC, without leap seconds, each so many bytes behind the one before it. They
 * need no alignment. */
struct movaliren_column {
    const void *numbers; /* of int64_t */
    size_t count;
    ptrdiff_t stride;
    enum movaliren_unit unit;
};

/* A column whose numbers stand one after another, as an initialiser. */
#define MOVALIREN_COLUMN(numbers, count, unit) { numbers, count, 8, unit }

/* The moment of a row. Before 1970 its second is rounded down. */
static inline struct movaliren_utc_moment movaliren_column_moment_(
    const struct movaliren_column *column, size_t row)
{
    const char *place = (const char *)column->numbers + (ptrdiff_t)row * column->stride;
    const int64_t unit = column->unit;
    int64_t number;
    memcpy(&number, place, sizeof number);
    const int64_t rest = number % unit, seconds = number / unit - (rest < 0);
    const struct movaliren_utc_moment moment
        = { seconds, (uint32_t)((rest < 0 ? rest + unit : rest) * (1000000000 / unit)) };
    return moment;
}

/* The progress of lines: the buffer holds those of this many moments, in this many bytes. error is 0 if these are all, or
 * else the movaliren_error of the next one. After MOVALIREN_ERROR_BUFFER_TOO_SMALL its text with its end does not fit what
 * is left: empty the buffer, and continue there. The bytes after the lines are unchanged. */
struct movaliren_progress {
    size_t moments;
    size_t bytes;
    ptrdiff_t error;
};

static inline ptrdiff_t movaliren_lines_text_utc_(const struct movaliren_lines *lines,
    int64_t seconds, uint32_t nanosecond, void *buffer, size_t buffer_size)
{
    switch (lines->format) {
    case MOVALIREN_LINES_RFC3339:
        return movaliren_rfc3339_utc(seconds, nanosecond, buffer, buffer_size);
    case MOVALIREN_LINES_RFC2822:
        return movaliren_rfc2822_utc(seconds, nanosecond, buffer, buffer_size);
    case MOVALIREN_LINES_ISO8601:
        return movaliren_iso8601_with_utc(lines->config, seconds, nanosecond, buffer, buffer_size);
    case MOVALIREN_LINES_DESCRIPTION:
        return movaliren_description_format_utc(
            lines->description, seconds, nanosecond, buffer, buffer_size);
    default:
        return MOVALIREN_ERROR_BAD_CONFIG;
    }
}

static inline ptrdiff_t movaliren_lines_text_local_(const struct movaliren_lines *lines,
    int64_t seconds, uint32_t nanosecond, void *buffer, size_t buffer_size)
{
    switch (lines->format) {
    case MOVALIREN_LINES_RFC3339:
        return movaliren_rfc3339_local(seconds, nanosecond, lines->offset, buffer, buffer_size);
    case MOVALIREN_LINES_RFC2822:
        return movaliren_rfc2822_local(seconds, nanosecond, lines->offset, buffer, buffer_size);
    case MOVALIREN_LINES_ISO8601:
        return movaliren_iso8601_with_local(
            lines->config, seconds, nanosecond, lines->offset, buffer, buffer_size);
    case MOVALIREN_LINES_DESCRIPTION:
        return movaliren_description_format_local(
            lines->description, seconds, nanosecond, lines->offset, buffer, buffer_size);
    default:
        return MOVALIREN_ERROR_BAD_CONFIG;
    }
}

/* The text of one line, without its end, as of a call for one text. Another format than these is
 * MOVALIREN_ERROR_BAD_CONFIG. */
static inline MOVALIREN_NONNULL_(1) ptrdiff_t movaliren_lines_text(
    const struct movaliren_lines *lines, int64_t seconds, uint32_t nanosecond, void *buffer,
    size_t buffer_size)
{
    return lines->is_local ? movaliren_lines_text_local_(lines, seconds, nanosecond, buffer, buffer_size)
                           : movaliren_lines_text_utc_(lines, seconds, nanosecond, buffer, buffer_size);
}

/* Adds a line to what a buffer holds, and returns whether it fits. Else the progress has the error. */
static inline MOVALIREN_NONNULL_(1) MOVALIREN_NONNULL_(2) int movaliren_lines_add(
    const struct movaliren_lines *lines, struct movaliren_progress *progress, int64_t seconds,
    uint32_t nanosecond, void *buffer, size_t buffer_size)
{
    char *bytes = (char *)buffer;
    const size_t rest = buffer_size - progress->bytes;
    ptrdiff_t count = MOVALIREN_ERROR_BUFFER_TOO_SMALL;
    if (rest > 0)
        count = movaliren_lines_text(lines, seconds, nanosecond, bytes + progress->bytes, rest - 1);
    progress->error = count < 0 ? count : 0;
    if (count < 0)
        return 0;
    progress->bytes += (size_t)count;
    bytes[progress->bytes++] = (char)lines->end;
    progress->moments++;
    return 1;
}

/* The lines of the rows of a column, from a row on, to a buffer. */
static inline MOVALIREN_NONNULL_(1) MOVALIREN_NONNULL_(2) struct movaliren_progress
movaliren_lines_column(const struct movaliren_lines *lines, const struct movaliren_column *column,
    size_t row, void *buffer, size_t buffer_size)
{
    struct movaliren_progress progress = { 0, 0, 0 };
    int is_added = 1;
    while (is_added && row + progress.moments < column->count) {
        const struct movaliren_utc_moment moment = movaliren_column_moment_(column, row + progress.moments);
        is_added = movaliren_lines_add(
            lines, &progress, moment.seconds, moment.nanosecond, buffer, buffer_size);
    }
    return progress;
}

/* All lines of a column, to a file, by a buffer of the caller's. `moments` and `bytes` of the progress count what the file
 * has taken. `error` is 0; or the error of the row of the number `moments`, after which nothing is written; or 1 where the
 * file does not take the lines: its error indicator is then set. A line that does not fit an empty buffer is
 * MOVALIREN_ERROR_BUFFER_TOO_SMALL. */
static inline MOVALIREN_NONNULL_(1) MOVALIREN_NONNULL_(2) MOVALIREN_NONNULL_(3) struct movaliren_progress
movaliren_lines_to_file(const struct movaliren_lines *lines, const struct movaliren_column *column,
    FILE *file, void *buffer, size_t buffer_size)
{
    struct movaliren_progress done = { 0, 0, 0 };
    while (done.error == 0 && done.moments < column->count) {
        const struct movaliren_progress part
            = movaliren_lines_column(lines, column, done.moments, buffer, buffer_size);
        if (part.bytes > 0 && fwrite(buffer, 1, part.bytes, file) != part.bytes) {
            done.error = 1;
        } else {
            done.moments += part.moments;
            done.bytes += part.bytes;
            if (part.error != MOVALIREN_ERROR_BUFFER_TOO_SMALL || part.moments == 0)
                done.error = part.error;
        }
    }
    return done;
}

#ifdef __cplusplus
}
#pragma GCC diagnostic pop
#endif
#endif
