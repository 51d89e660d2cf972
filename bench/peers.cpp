// peers WAY TURNS [TEXT [PATTERN]]: so many texts by the way of that name, or so many readings of the text. It prints a sum
// that depends on all turns, and the last text. peers versions names what it was compiled with. For bench/run.
#include <cstdint>
#include <cstdio>
#include <cstdlib>
#include <cstring>
#include <ctime>
#include <fmt/chrono.h>
#include <fmt/compile.h>
#include <gnu/libc-version.h>
#ifdef WITH_MOVALIREN
#include <movaliren.h>
#endif

enum { VALUES = 64, MOMENTS = 1000, ROOM = 128 };

static char room[ROOM];
static const char *text = "", *pattern = "";

// ---- the 64 random values of texts/values.rt.in, each as a tm that is made before

static tm values[VALUES];

static unsigned below(unsigned limit)
{
    static uint64_t seed = 20261123;
    seed = seed * 6364136223846793005u + 1442695040888963407u;
    return unsigned(seed >> 33) % limit;
}

static void fill_values()
{
    for (auto &value : values) {
        tm parts = tm();
        parts.tm_mon = int(below(12));
        parts.tm_year = int(below(8100));
        parts.tm_mday = int(1 + below(28));
        parts.tm_hour = int(below(24));
        parts.tm_min = int(below(60));
        below(1000000000);
        parts.tm_sec = int(below(60));
        const int hours = below(4) == 0 ? 0 : int(below(24));
        timegm(&parts);
        parts.tm_gmtoff = hours == 0 ? 0 : hours * 3600 + 1800;
        value = parts;
    }
}

// ---- random moments of the years 1970 to 9999, each as seconds since 1970 and a nanosecond

static struct moment {
    int64_t seconds;
    uint32_t nanosecond;
} moments[MOMENTS];

static uint64_t next()
{
    static uint64_t state = 88172645463325252u;
    state ^= state << 13;
    state ^= state >> 7;
    state ^= state << 17;
    return state;
}

static void fill_moments()
{
    for (auto &moment : moments) {
        moment.seconds = int64_t(next() % 253402300800u);
        moment.nanosecond = uint32_t(next() % 100000000 * 10 + 1 + next() % 9);
    }
}

static size_t by_strftime(const moment &moment, const char *time)
{
    tm parts;
    gmtime_r(&moment.seconds, &parts);
    return strftime(room, ROOM, time, &parts);
}

// What a text of strftime has, and nine decimals by snprintf.
static size_t with_decimals(const moment &moment, size_t length)
{
    return length + size_t(snprintf(room + length, ROOM - length, ".%09uZ", moment.nanosecond));
}

static size_t by_strptime(const char *text, const char *pattern)
{
    tm parts = tm();
    const char *rest = strptime(text, pattern, &parts);
    return rest && !*rest;
}

// ---- the ways

#define TURN(result) [](size_t turn) -> size_t { return size_t(result); }
#define VALUE values[turn % VALUES]
#define MOMENT moments[turn % MOMENTS]
#define SECONDS_AND_NANOSECOND MOMENT.seconds, MOMENT.nanosecond
#define FMT(...) fmt::format_to(room, __VA_ARGS__) - room
#define BOTH(name, pattern) \
    { name "/strftime", TURN(strftime(room, ROOM, pattern, &VALUE)) }, \
        { name "/fmt", TURN(FMT(FMT_COMPILE("{:" pattern "}"), VALUE)) }
#define TIME "%Y-%m-%dT%H:%M:%S"
#define ELEVEN "%Y-%m-%d %H:%M:%S"

#ifdef WITH_MOVALIREN
static movaliren_description form;
static movaliren_utc_moment read_moment;
static movaliren_read_error fault;

static bool make_form(const char *description)
{
    movaliren_parse_error none;
    return movaliren_description_parse_strftime(&form, description, strlen(description), &none) == 0;
}
#endif

static const struct {
    const char *name;
    size_t (*turn)(size_t turn);
} ways[] = {
    { "none", TURN(MOMENT.nanosecond) },
    BOTH("rfc2822", "%a, %d %b %Y %H:%M:%S %z"),
    BOTH("eleven", ELEVEN),
    { "names/strftime", TURN(strftime(room, ROOM, "%b %d, %Y %I:%M %p", &VALUE)) },
    { "strptime", TURN(by_strptime(text, pattern)) },
    { "unix-rfc3339/strftime", TURN(with_decimals(MOMENT, by_strftime(MOMENT, TIME))) },
    { "unix-rfc3339/fmt", TURN(FMT(FMT_COMPILE("{:" TIME "}.{:09}Z"), fmt::gmtime(MOMENT.seconds), MOMENT.nanosecond)) },
    { "unix-eleven/strftime", TURN(by_strftime(MOMENT, ELEVEN)) },
    { "unix-eleven/fmt", TURN(FMT(FMT_COMPILE("{:" ELEVEN "}"), fmt::gmtime(MOMENT.seconds))) },
#ifdef WITH_MOVALIREN
    { "unix-rfc3339", TURN(movaliren_rfc3339_utc(SECONDS_AND_NANOSECOND, room, ROOM)) },
    { "prepared", TURN(movaliren_description_format_utc(&form, SECONDS_AND_NANOSECOND, room, ROOM)) },
    { "described", TURN(movaliren_format_strftime_utc(pattern, strlen(pattern), SECONDS_AND_NANOSECOND, room, ROOM)) },
    { "read", TURN(!movaliren_description_read_utc(&form, text, strlen(text), &read_moment, &fault)) },
#endif
};

int main(int count, char **words)
{
    if (count == 2 && !strcmp(words[1], "versions"))
        printf("g++ %s, glibc %s, {fmt} %d.%d.%d\n", __VERSION__, gnu_get_libc_version(), FMT_VERSION / 10000,
            FMT_VERSION / 100 % 100, FMT_VERSION % 100);
    if (count < 3)
        return count != 2;
    text = count > 3 ? words[3] : "";
    pattern = count > 4 ? words[4] : ELEVEN;
    fill_values();
    fill_moments();
#ifdef WITH_MOVALIREN
    if (!make_form(pattern))
        return 1;
#endif
    const size_t turns = size_t(atol(words[2]));
    size_t sum = 0;
    for (const auto &way : ways)
        if (!strcmp(words[1], way.name))
            for (size_t turn = 0; turn < turns; turn++)
                sum += way.turn(turn);
    printf("%zu %s\n", sum, room);
    return sum == 0;
}
