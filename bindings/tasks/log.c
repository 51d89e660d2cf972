/* A line of a log with the time of now, in UTC with milliseconds. */
#define _DEFAULT_SOURCE
#include <movaliren.h>
#include <time.h>

static const struct movaliren_iso8601_config milliseconds = MOVALIREN_ISO8601_DECIMALS(3);

int main(void)
{
    char time[MOVALIREN_ISO8601_SIZE];
    struct timespec now;
    clock_gettime(CLOCK_REALTIME, &now);
    MOVALIREN_TO_ARRAY(time, movaliren_iso8601_with_utc, &milliseconds, now.tv_sec, (uint32_t)now.tv_nsec);
    printf("%s opened\n", time);
}
