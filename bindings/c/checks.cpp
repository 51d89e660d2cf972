// What movaliren.hpp adds: durations, points of each kind, errors, streams, descriptions, lines, and std::format where the
// library has it.
#include <cmath>
#include <iostream>
#include <movaliren.hpp>
#include <sstream>
#include <vector>

using namespace std::chrono;
using movaliren::errc, movaliren::rfc3339;

static int failed = 0;

static void expect(std::string_view text, std::string_view wanted)
{
    if (text != wanted) {
        failed++;
        std::cout << '"' << text << "\", not \"" << wanted << "\"\n";
    }
}

template <class Call> static void expect_thrown(errc wanted, std::string_view words, Call call)
{
    try {
        call();
        expect("nothing thrown", words);
    } catch (const std::system_error &error) {
        expect(error.code().message(), make_error_code(wanted).message());
        expect(std::string_view(error.what()).substr(0, words.size()), words);
    }
}

template <class Duration> static auto at(Duration since) { return movaliren::sys_time<Duration>(since); }

template <class Format, class... Point> static std::string shown(const Format &what, const Point &...point)
{
    std::ostringstream out;
    out << movaliren::format(what, point...);
    return out.str();
}

// Types with the members of std::chrono::zoned_time and of std::chrono::year_month_day, which not every library has.
struct zoned {
    struct info { seconds offset; };
    info get_info() const { return { hours(-8) }; }
    movaliren::sys_time<seconds> get_sys_time() const { return at(seconds(851042397)); }
};

struct ymd {
    int year() const { return 1997; }
    unsigned month() const { return 11; }
    unsigned day() const { return 21; }
};

// The bytes of a text last as long as it, so the value of one that ends with the expression is a copy.
static_assert(std::is_same_v<decltype(movaliren::format(rfc3339, at(seconds(0))).value()), std::string>);
static_assert(movaliren::has_seconds<nanoseconds> && !movaliren::has_seconds<minutes> && !movaliren::has_seconds<duration<double>>);

static void texts()
{
    using picoseconds = duration<std::int64_t, std::pico>;
    using years = duration<std::int64_t, std::ratio<31556952>>;
    const movaliren_moment moment = { 1937, 1, 1, 12, 0, 27, 870000000, 0, 20, 0 };
    const movaliren::iso8601_with week{ { MOVALIREN_ISO8601_PARTS_DATE, MOVALIREN_ISO8601_BY_WEEK, 0, 0, 0, 1, 0, 0 } };
    expect(shown(rfc3339, at(milliseconds(482196050520))), "1985-04-12T23:20:50.52Z");
    expect(shown(rfc3339, at(seconds(851042397)), hours(-8)), "1996-12-19T16:39:57-08:00");
    expect(shown(rfc3339, moment), "1937-01-01T12:00:27.87+00:20");
    expect(shown(rfc3339, zoned()), "1996-12-19T16:39:57-08:00");
    expect(shown(movaliren::rfc2822, at(minutes(14668795))), "Fri, 21 Nov 1997 15:55:00 +0000");
    expect(shown(movaliren::imf_fixdate, at(seconds(784111777))), "Sun, 06 Nov 1994 08:49:37 GMT");
    expect(shown(movaliren::iso8601(3), at(milliseconds(879350106120)), hours(1)), "1997-11-12T16:55:06.120+01:00");
    expect(shown(week, at(hours(0)), hours(-1)), "1970-W01-3");
    expect(shown(movaliren::stamp, at(nanoseconds(1))), "1970-01-01T00:00:00.000000001Z");
    expect(shown(rfc3339, at(milliseconds(-1))), "1969-12-31T23:59:59.999Z");
    expect(shown(rfc3339, at(picoseconds(-1))), "1969-12-31T23:59:59.999999999Z");
    expect(shown(rfc3339, at(duration<double>(-0.25))), "1969-12-31T23:59:59.75Z");
    expect(shown(rfc3339, at(duration<long double>(std::nextafter(1.0L, 0.0L)))), "1970-01-01T00:00:00.999999999Z");
    for (const auto &far : { shown(rfc3339, at(years(INT64_MIN))), shown(rfc3339, at(duration<double>(INFINITY))),
             shown(rfc3339, at(duration<double>(std::nan("")))), shown(rfc3339, at(seconds(INT64_MAX))) })
        expect(far, "<the seconds are outside the years -999999 to 999999>");
    expect_thrown(errc::format_year, "the format", [] { (void)movaliren::format(rfc3339, at(seconds(253402300800))).value(); });
}

static void descriptions_and_readings()
{
    const auto line = movaliren::description::parse_strftime("%d of %B");
    expect(movaliren::format(line, at(seconds(880127706)), hours(9)), "22 of November");
    expect(movaliren::format(line, ymd()), "21 of November");
    expect_thrown(errc::bad_description, "unknown component at byte 1", [] { movaliren::description::parse("[yaer]"); });
    expect_thrown(errc::insufficient, "the value", [] { movaliren::format(movaliren::description::parse("[hour]"), ymd()); });
    const auto moment = movaliren::read(rfc3339, "1937-01-01T12:00:27.87+00:20").value();
    expect(shown(rfc3339, moment), "1937-01-01T11:40:27.87Z");
    expect(shown(rfc3339, movaliren::time_point_of(moment)), "1937-01-01T11:40:27.87Z");
    expect_thrown(errc::moment_seconds, "the seconds", [] { movaliren::time_point_of({ INT64_MAX / 1'000'000'000, 0 }); });
    expect(shown(rfc3339, movaliren::read_local(movaliren::rfc3339_lenient, "1996-12-19t16:39:57-08:00").value()), "1996-12-19T16:39:57-08:00");
    expect(shown(rfc3339, movaliren::read(movaliren::rfc2822_lenient, "21 Nov 97 09:55:06 EST").value()), "1997-11-21T14:55:06Z");
    expect(shown(rfc3339, movaliren::read(movaliren::iso8601(3), "1997-11-12T15:55:06.120Z").value()), "1997-11-12T15:55:06.12Z");
    const auto server = movaliren::description::parse_strftime("%d/%b/%Y:%H:%M:%S %z");
    expect(shown(rfc3339, movaliren::read_local(server, "10/Oct/2000:13:55:36 -0700").value()), "2000-10-10T13:55:36-07:00");
    expect(movaliren::read(server, "10/Okt/2000").message(), "byte 3: expected [month repr:short]");
    expect(movaliren::read(line, "").message(), "the texts do not determine a moment");
    expect_thrown(errc::not_read, "byte 0: expected a digit from 0 to 9", [] { (void)movaliren::read(rfc3339, {}).value(); });
    const std::vector<movaliren::sys_time<milliseconds>> points = { at(milliseconds(-1)), at(milliseconds(0)) };
    expect(movaliren::lines(rfc3339, points), "1969-12-31T23:59:59.999Z\n1970-01-01T00:00:00Z\n");
    expect_thrown(errc::format_year, "row 0:", [] { movaliren::lines(rfc3339, std::vector{ at(seconds(253402300800)) }); });
}

int main()
{
    texts();
    descriptions_and_readings();
#ifdef __cpp_lib_format
    expect(std::format("{:>24}", movaliren::format(rfc3339, at(seconds(0)))), "    1970-01-01T00:00:00Z");
    expect(std::format("{:%d %B} and {}", movaliren::at(at(seconds(880127706))), movaliren::at(at(seconds(880127706)), hours(-6))),
        "21 November and 1997-11-21T09:55:06-06:00");
#endif
    std::cout << "checks of C++: " << failed << " failed\n";
    return failed != 0;
}
