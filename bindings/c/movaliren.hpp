// Movaliren for C++17: texts of the time points of std::chrono, and errors as std::error_code. It adds to movaliren.h,
// which says what each format is and what it refuses.
//
//     std::cout << movaliren::format(movaliren::rfc3339, std::chrono::system_clock::now()) << '\n';
//
// format takes what the text is of: a format below or a description; then a time point, and after it the offset of local
// time, if it is to be shown. read takes a format or a description, and a text. A call allocates nothing but where it
// returns a std::string or throws. A time point has any duration; what is finer than a nanosecond is rounded down, before
// 1970 too. With <format>, a text is an argument of std::format.
#ifndef MOVALIREN_HPP
#define MOVALIREN_HPP

#include <algorithm>
#include <chrono>
#include <cstddef>
#include <cstdint>
#include <iterator>
#include <movaliren.h>
#include <ostream>
#include <ratio>
#include <string>
#include <string_view>
#include <system_error>
#include <type_traits>
#include <utility>
#if __has_include(<version>)
#include <version>
#endif
#ifdef __cpp_lib_format
#include <format>
#endif

namespace movaliren {

// Why no text was written. The numbers are those of movaliren_error.
enum class errc : int {
    year = MOVALIREN_ERROR_YEAR,
    month = MOVALIREN_ERROR_MONTH,
    day = MOVALIREN_ERROR_DAY,
    hour = MOVALIREN_ERROR_HOUR,
    minute = MOVALIREN_ERROR_MINUTE,
    second = MOVALIREN_ERROR_SECOND,
    nanosecond = MOVALIREN_ERROR_NANOSECOND,
    offset_hours = MOVALIREN_ERROR_OFFSET_HOURS,
    offset_minutes = MOVALIREN_ERROR_OFFSET_MINUTES,
    offset_seconds = MOVALIREN_ERROR_OFFSET_SECONDS,
    moment_seconds = MOVALIREN_ERROR_MOMENT_SECONDS,
    format_year = MOVALIREN_ERROR_FORMAT_YEAR,
    format_offset_hour = MOVALIREN_ERROR_FORMAT_OFFSET_HOUR,
    format_offset_minute = MOVALIREN_ERROR_FORMAT_OFFSET_MINUTE,
    format_offset_second = MOVALIREN_ERROR_FORMAT_OFFSET_SECOND,
    insufficient = MOVALIREN_ERROR_INSUFFICIENT,
    out_of_range = MOVALIREN_ERROR_OUT_OF_RANGE,
    bad_config = MOVALIREN_ERROR_BAD_CONFIG,
    bad_item = MOVALIREN_ERROR_BAD_ITEM,
    buffer_too_small = MOVALIREN_ERROR_BUFFER_TOO_SMALL,
    not_read = MOVALIREN_ERROR_NOT_READ,
    bad_description = MOVALIREN_ERROR_BAD_DESCRIPTION,
    many_items = MOVALIREN_ERROR_MANY_ITEMS,
    undetermined = MOVALIREN_ERROR_UNDETERMINED
};

// The category of these errors, whose messages are those of movaliren_strerror.
inline const std::error_category &category() noexcept
{
    struct named final : std::error_category {
        const char *name() const noexcept override { return "movaliren"; }
        std::string message(int reason) const override { return movaliren_strerror(reason); }
    };
    static const named category;
    return category;
}

inline std::error_code make_error_code(errc error) noexcept
{
    return { static_cast<int>(error), category() };
}

} // namespace movaliren

template <> struct std::is_error_code_enum<movaliren::errc> : std::true_type {};

namespace movaliren {

// The error of a call, or an error code of zero.
inline std::error_code error_of(std::ptrdiff_t answer) noexcept
{
    return answer < 0 ? make_error_code(static_cast<errc>(answer)) : std::error_code();
}

// The count that a call returned. After an error throws std::system_error.
inline std::size_t checked(std::ptrdiff_t answer)
{
    if (answer < 0)
        throw std::system_error(error_of(answer));
    return static_cast<std::size_t>(answer);
}

// ---- moments

// A time point of the system's clock, with any duration.
template <class Duration> using sys_time = std::chrono::time_point<std::chrono::system_clock, Duration>;

// Whether the seconds of each duration of this type are an std::int64_t.
template <class Duration>
inline constexpr bool has_seconds = std::is_integral_v<typename Duration::rep>
    &&std::is_signed_v<typename Duration::rep> && sizeof(typename Duration::rep) <= sizeof(std::int64_t)
    && std::ratio_less_equal_v<typename Duration::period, std::ratio<1>>;

// The seconds and the nanosecond of a time point, rounded down.
template <class Duration> movaliren_utc_moment moment_of(sys_time<Duration> point)
{
    using seconds = std::chrono::duration<std::int64_t>;
    using nanoseconds = std::chrono::duration<std::int64_t, std::nano>;
    const auto since = point.time_since_epoch();
    if constexpr (!has_seconds<Duration>) {
        // Far outside of the years -999999 to 999999. No number of a type is cut to one in range.
        const auto about = std::chrono::duration<long double>(since).count();
        if (!(about > -1e14L && about < 1e14L))
            return { INT64_MAX, 0 };
    }
    const auto second = std::chrono::floor<seconds>(since);
    const auto rest = std::chrono::floor<nanoseconds>(since - second).count();
    return { second.count(), static_cast<std::uint32_t>(rest > 999'999'999 ? 999'999'999 : rest) };
}

inline const movaliren_utc_moment &moment_of(const movaliren_utc_moment &moment) { return moment; }

// The time point of a moment, in nanoseconds. Outside of the years 1677 to 2262, which these reach, throws
// std::system_error with errc::moment_seconds.
inline sys_time<std::chrono::nanoseconds> time_point_of(const movaliren_utc_moment &moment)
{
    const std::int64_t least = INT64_MIN / 1'000'000'000, most = INT64_MAX / 1'000'000'000;
    if (moment.seconds < least || moment.seconds >= most)
        throw std::system_error(make_error_code(errc::moment_seconds));
    return sys_time<std::chrono::nanoseconds>(
        std::chrono::seconds(moment.seconds) + std::chrono::nanoseconds(moment.nanosecond));
}

// ---- formats: what a text is of. Each has a `size`, with which an array holds any text and a zero after it.

// RFC 3339, as 1985-04-12T23:20:50.52Z.
struct rfc3339_format {
    static constexpr std::size_t size = MOVALIREN_RFC3339_SIZE;
    template <class... To> static auto utc(To... to) { return movaliren_rfc3339_utc(to...); }
    template <class... To> static auto local(To... to) { return movaliren_rfc3339_local(to...); }
    template <class... To> static auto parts(To... to) { return movaliren_rfc3339(to...); }
    template <class... To> static auto read_utc(To... to) { return movaliren_read_rfc3339_utc(to...); }
    template <class... To> static auto read(To... to) { return movaliren_read_rfc3339(to...); }
};
inline constexpr rfc3339_format rfc3339;

// The same, which also reads texts of other programs.
struct rfc3339_lenient_format : rfc3339_format {
    template <class... To> static auto read_utc(To... to) { return movaliren_read_rfc3339_lenient_utc(to...); }
    template <class... To> static auto read(To... to) { return movaliren_read_rfc3339_lenient(to...); }
};
inline constexpr rfc3339_lenient_format rfc3339_lenient;

// RFC 2822, as Fri, 21 Nov 1997 15:55:06 +0000.
struct rfc2822_format {
    static constexpr std::size_t size = MOVALIREN_RFC2822_SIZE;
    template <class... To> static auto utc(To... to) { return movaliren_rfc2822_utc(to...); }
    template <class... To> static auto local(To... to) { return movaliren_rfc2822_local(to...); }
    template <class... To> static auto parts(To... to) { return movaliren_rfc2822(to...); }
    template <class... To> static auto read_utc(To... to) { return movaliren_read_rfc2822_utc(to...); }
    template <class... To> static auto read(To... to) { return movaliren_read_rfc2822(to...); }
};
inline constexpr rfc2822_format rfc2822;

// The same, which also reads dates of mail and of feeds.
struct rfc2822_lenient_format : rfc2822_format {
    template <class... To> static auto read_utc(To... to) { return movaliren_read_rfc2822_lenient_utc(to...); }
    template <class... To> static auto read(To... to) { return movaliren_read_rfc2822_lenient(to...); }
};
inline constexpr rfc2822_lenient_format rfc2822_lenient;

// ISO 8601 by a configuration.
struct iso8601_with {
    static constexpr std::size_t size = MOVALIREN_ISO8601_WITH_SIZE;
    movaliren_iso8601_config config;
    template <class... To> auto utc(To... to) const { return movaliren_iso8601_with_utc(&config, to...); }
    template <class... To> auto local(To... to) const { return movaliren_iso8601_with_local(&config, to...); }
    template <class... To> auto parts(To... to) const { return movaliren_iso8601_with(&config, to...); }
    template <class... To> auto read_utc(To... to) const { return movaliren_read_iso8601_with_utc(&config, to...); }
    template <class... To> auto read(To... to) const { return movaliren_read_iso8601_with(&config, to...); }
};

// ISO 8601 with this many decimals of a second, 0 to 9, as 1997-11-12T15:55:06.120Z for 3. More decimals than 9 are an
// error where the text has more than 35 bytes.
struct iso8601 : iso8601_with {
    static constexpr std::size_t size = MOVALIREN_ISO8601_SIZE;
    explicit constexpr iso8601(std::uint8_t decimals = 9) : iso8601_with{ MOVALIREN_ISO8601_DECIMALS(decimals) } {}
};

// The date of HTTP, as Sun, 06 Nov 1994 08:49:37 GMT, of a time point or a movaliren_moment.
struct imf_fixdate_format {
    static constexpr std::size_t size = MOVALIREN_IMF_FIXDATE_SIZE;
    template <class... To> static auto utc(To... to) { return movaliren_imf_fixdate_utc(to...); }
    template <class... To> static auto parts(To... to) { return movaliren_imf_fixdate(to...); }
};
inline constexpr imf_fixdate_format imf_fixdate;

// A stamp of 30 bytes, as 1997-11-12T15:55:06.000000000Z, of a time point alone. Stamps sort by bytes as their moments do.
struct stamp_format {
    static constexpr std::size_t size = MOVALIREN_STAMP_SIZE;
    template <class... To> static auto utc(To... to) { return movaliren_stamp_utc(to...); }
};
inline constexpr stamp_format stamp;

// A text is no description: what is wrong, and at which byte. what() says both.
class invalid_description : public std::system_error {
public:
    invalid_description(std::ptrdiff_t answer, const movaliren_parse_error &error)
        : std::system_error(error_of(answer)), parse_error_(error)
    {
        MOVALIREN_TO_ARRAY(words_, movaliren_parse_strerror_r, &error);
    }

    const char *what() const noexcept override { return words_; }

    const movaliren_parse_error &parse_error() const noexcept { return parse_error_; }

private:
    movaliren_parse_error parse_error_;
    char words_[MOVALIREN_WORDS_SIZE];
};

// A description, which is made once from a text, and formats and reads any number of texts.
//
//     const auto line = movaliren::description::parse_strftime("%d of %B");
//     const std::string today = movaliren::format(line, std::chrono::system_clock::now());
class description {
public:
    // The description in brackets, as [year]-[month]-[day]. Throws invalid_description.
    static description parse(std::string_view text) { return parsed(text, movaliren_description_parse); }

    // The description in the syntax of strftime. Throws invalid_description.
    static description parse_strftime(std::string_view text) { return parsed(text, movaliren_description_parse_strftime); }

    // No text has more bytes.
    std::size_t max_length() const { return checked(movaliren_description_max_length(&form_)); }

    template <class... To> auto utc(To... to) const { return movaliren_description_format_utc(&form_, to...); }
    template <class... To> auto local(To... to) const { return movaliren_description_format_local(&form_, to...); }
    template <class... To> auto parts(To... to) const { return movaliren_description_format(&form_, to...); }
    template <class... To> auto date(To... to) const { return movaliren_description_format_date(&form_, to...); }
    template <class... To> auto read_utc(To... to) const { return movaliren_description_read_utc(&form_, to...); }
    template <class... To> auto read(To... to) const { return movaliren_description_read(&form_, to...); }

private:
    template <class Parse> static description parsed(std::string_view text, Parse parse)
    {
        description made;
        movaliren_parse_error error;
        const std::ptrdiff_t answer = parse(&made.form_, text.data(), text.size(), &error);
        if (answer < 0)
            throw invalid_description(answer, error);
        return made;
    }

    movaliren_description form_;
};

// ---- texts

// Writes the text of a point to a buffer, as the calls of movaliren.h do: of a time point or a movaliren_utc_moment, in UTC.
template <class Format, class Point>
auto write(const Format &what, char *buffer, std::size_t size, const Point &point)
    -> decltype(moment_of(point), std::ptrdiff_t())
{
    const auto moment = moment_of(point);
    return what.utc(moment.seconds, moment.nanosecond, buffer, size);
}

// The same by the local date and time, which is `offset` ahead of UTC.
template <class Format, class Point>
auto write(const Format &what, char *buffer, std::size_t size, const Point &point, std::chrono::seconds offset)
    -> decltype(moment_of(point), std::ptrdiff_t())
{
    const auto moment = moment_of(point);
    return what.local(moment.seconds, moment.nanosecond, std::int64_t{ offset.count() }, buffer, size);
}

// The text of a local date and time by its parts.
template <class Format>
std::ptrdiff_t write(const Format &what, char *buffer, std::size_t size, const movaliren_moment &moment)
{
    return what.parts(&moment, buffer, size);
}

// The text of a zoned time by its local date and time: of std::chrono::zoned_time, and of another type with its members.
template <class Format, class Zoned>
auto write(const Format &what, char *buffer, std::size_t size, const Zoned &zoned)
    -> decltype(zoned.get_info().offset, std::ptrdiff_t())
{
    return write(what, buffer, size, zoned.get_sys_time(), zoned.get_info().offset);
}

// The text of a date by a description: of std::chrono::year_month_day, and of another type with its members.
template <class Format, class Date>
auto write(const Format &what, char *buffer, std::size_t size, const Date &date)
    -> decltype(unsigned(date.month()), std::ptrdiff_t())
{
    return what.date(int(date.year()), static_cast<std::uint8_t>(unsigned(date.month())),
        static_cast<std::uint8_t>(unsigned(date.day())), buffer, size);
}

// A text of less than `Size` bytes, in this object, or the error that kept it from being written.
template <std::size_t Size> class text {
public:
    // Takes a call that writes to a buffer and its size, as those of movaliren.h.
    template <class Call> explicit text(Call call) { len_ = call(bytes_, Size - 1); }

    // Whether the text was written.
    explicit operator bool() const noexcept { return len_ >= 0; }

    // The error, or an error code of zero where the text was written.
    std::error_code error() const noexcept { return error_of(len_); }

    // The bytes of the text, or none after an error. They last as long as this object.
    std::string_view view() const &noexcept
    {
        return { bytes_, len_ < 0 ? std::size_t{ 0 } : static_cast<std::size_t>(len_) };
    }

    // The text. After an error throws std::system_error.
    std::string_view value() const & { return { bytes_, checked(len_) }; }

    // The text of an object that ends with the expression is copied.
    std::string value() && { return { bytes_, checked(len_) }; }

private:
    char bytes_[Size];
    std::ptrdiff_t len_ = 0;
};

// Writes the text. After an error writes the reason in angle brackets, as a log has it, and leaves the stream good.
template <std::size_t Size> std::ostream &operator<<(std::ostream &out, const text<Size> &text)
{
    return text ? out << text.view() : out << '<' << text.error().message() << '>';
}

// The text of a point by a format, which has an array of its own.
template <class Format, class... Point> text<Format::size> format(const Format &what, const Point &...point)
{
    return text<Format::size>([&](char *buffer, std::size_t size) { return write(what, buffer, size, point...); });
}

// The text of a point by a description. After an error throws std::system_error.
template <class... Point> std::string format(const description &what, const Point &...point)
{
    std::string text(what.max_length(), '\0');
    text.resize(checked(write(what, text.data(), text.size(), point...)));
    return text;
}

// ---- texts, read back

// A moment that was read from a text, or where the text could not be read.
template <class Moment> class reading {
public:
    // Takes a call that reads into a moment and an error, as those of movaliren.h.
    template <class Call> explicit reading(Call call) { answer_ = call(&moment_, &read_error_); }

    // Whether the text was read.
    explicit operator bool() const noexcept { return answer_ == 0; }

    // The error, or an error code of zero where the text was read.
    std::error_code error() const noexcept { return error_of(answer_); }

    // Where the text could not be read. Zeros where it was read.
    const movaliren_read_error &read_error() const noexcept { return read_error_; }

    // The same in words, as "byte 9: expected a digit from 0 to 8", or nothing where the text was read.
    std::string message() const
    {
        char words[MOVALIREN_WORDS_SIZE];
        if (answer_ != MOVALIREN_ERROR_NOT_READ)
            return answer_ < 0 ? movaliren_strerror(answer_) : "";
        MOVALIREN_TO_ARRAY(words, movaliren_read_strerror_r, &read_error_);
        return words;
    }

    // The moment. Where the text was not read throws std::system_error.
    const Moment &value() const
    {
        if (answer_ < 0)
            throw std::system_error(error(), message());
        return moment_;
    }

private:
    Moment moment_ = Moment();
    movaliren_read_error read_error_ = movaliren_read_error();
    std::ptrdiff_t answer_ = 0;
};

// Reads a text of a format or of a description as a moment in UTC.
template <class Format> reading<movaliren_utc_moment> read(const Format &what, std::string_view text)
{
    return reading<movaliren_utc_moment>([&](movaliren_utc_moment *moment, movaliren_read_error *error) {
        return what.read_utc(text.data(), text.size(), moment, error);
    });
}

// Reads it as a local date and time with its offset.
template <class Format> reading<movaliren_moment> read_local(const Format &what, std::string_view text)
{
    return reading<movaliren_moment>([&](movaliren_moment *moment, movaliren_read_error *error) {
        return what.read(text.data(), text.size(), moment, error);
    });
}

// ---- lines

// A time point of a range has no text: why, and its index.
class row_error : public std::system_error {
public:
    row_error(std::error_code error, std::size_t row)
        : std::system_error(error, "row " + std::to_string(row)), row_(row)
    {
    }

    std::size_t row() const noexcept { return row_; }

private:
    std::size_t row_;
};

// The lines of a range of time points, each with a line feed. Throws row_error.
template <class Format, class Range> std::string lines(const Format &what, const Range &points)
{
    std::string text;
    std::size_t row = 0;
    for (const auto &point : points) {
        const auto line = movaliren::format(what, point);
        if (!line)
            throw row_error(line.error(), row);
        text.append(line.view()) += '\n';
        row++;
    }
    return text;
}

// A time point at an offset, as an argument of std::format, by a description in the syntax of strftime:
//
//     std::format("{:%d %B, %H:%M}", movaliren::at(std::chrono::system_clock::now()))
struct moment_at {
    movaliren_utc_moment moment;
    std::chrono::seconds offset;
};

template <class Duration>
moment_at at(sys_time<Duration> point, std::chrono::seconds offset = std::chrono::seconds(0))
{
    return { moment_of(point), offset };
}

} // namespace movaliren

#ifdef __cpp_lib_format
// Formats a moment by the text after the colon, or to the second by %FT%T%:z where there is none. A text that is no
// description, or describes what the moment has not, throws std::format_error.
template <> struct std::formatter<movaliren::moment_at> {
    constexpr auto parse(std::format_parse_context &context)
    {
        const auto end = std::find(context.begin(), context.end(), '}');
        if (!std::is_constant_evaluated())
            read(std::string_view(context.begin(), end));
        return end;
    }

    template <class Context> auto format(const movaliren::moment_at &at, Context &context) const
    {
        const auto most = movaliren_description_max_length(&form_);
        std::string line(static_cast<std::size_t>(most < 0 ? 0 : most), '\0');
        const auto count = movaliren_description_format_local(
            &form_, at.moment.seconds, at.moment.nanosecond, at.offset.count(), line.data(), line.size());
        if (count < 0)
            throw std::format_error(movaliren_strerror(count));
        return std::copy(line.begin(), line.begin() + count, context.out());
    }

private:
    void read(std::string_view text)
    {
        movaliren_parse_error error;
        if (text.empty())
            text = "%FT%T%:z";
        const auto answer = movaliren_description_parse_strftime(&form_, text.data(), text.size(), &error);
        if (answer < 0)
            throw std::format_error(movaliren_strerror(answer));
    }

    movaliren_description form_ = {};
};

// Formats a text as a std::string_view. After an error throws std::format_error.
template <std::size_t Size>
struct std::formatter<movaliren::text<Size>> : std::formatter<std::string_view> {
    template <class Context> auto format(const movaliren::text<Size> &text, Context &context) const
    {
        if (!text)
            throw std::format_error(text.error().message());
        return std::formatter<std::string_view>::format(text.view(), context);
    }
};
#endif

#endif
