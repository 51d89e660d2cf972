/* The example of the front page: each way to a text once, and what a refusal looks like. */
#include "movaliren.h"

#include <stdio.h>

static void show(const char *name, ptrdiff_t count, char *buffer)
{
    if (count < 0) {
        printf("%-13s none: %s\n", name, movaliren_strerror(count));
    } else {
        buffer[count] = 0;
        printf("%-13s %s\n", name, buffer);
    }
}

int main(void)
{
    char buffer[MOVALIREN_ISO8601_WITH_SIZE];
    const size_t most = sizeof buffer - 1;
    struct movaliren_moment moment = { .year = 1997, .month = 11, .day = 12, .hour = 9,
        .minute = 55, .second = 6, .nanosecond = 120000000, .offset_hours = -6 };
    show("RFC 3339", movaliren_rfc3339(&moment, buffer, most), buffer);
    show("RFC 2822", movaliren_rfc2822(&moment, buffer, most), buffer);
    show("ISO 8601", movaliren_iso8601(&moment, buffer, most), buffer);

    struct movaliren_iso8601_config week = MOVALIREN_ISO8601_DEFAULT;
    week.date_kind = MOVALIREN_ISO8601_BY_WEEK;
    week.decimals = 3;
    week.comma = 1;
    show("by week", movaliren_iso8601_with(&week, &moment, buffer, most), buffer);
    show("stamp", movaliren_stamp_utc(879350106, 120000000, buffer, most), buffer);

    static const struct movaliren_iso8601_config milliseconds = MOVALIREN_ISO8601_DECIMALS(3);
    show("milliseconds",
        movaliren_iso8601_with_utc(&milliseconds, 879350106, 120000000, buffer, most), buffer);
    show("local time", movaliren_rfc3339_local(879350106, 120000000, -21600, buffer, most), buffer);

    static const char week_form[] = "%-d %B, week %G-W%V", no_form[] = "%-d %Q";
    struct movaliren_description form;
    struct movaliren_parse_error error;
    if (movaliren_description_parse_strftime(&form, week_form, strlen(week_form), &error) < 0)
        return 1;
    printf("%-13s %td\n", "width", movaliren_description_max_length(&form));
    show("a moment", movaliren_description_format(&form, &moment, buffer, most), buffer);
    show("a date", movaliren_description_format_date(&form, 2026, 11, 22, buffer, most), buffer);
    if (movaliren_description_parse_strftime(&form, no_form, strlen(no_form), &error) < 0)
        show("%Q", movaliren_parse_strerror_r(&error, buffer, most), buffer);

    moment.year = 10000;
    show("year 10000", movaliren_rfc3339(&moment, buffer, most), buffer);
    return 0;
}
