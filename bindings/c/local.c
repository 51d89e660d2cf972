/* Logs local time with milliseconds: the clock's, and that of each moment on the standard input, by its seconds since
 * 1970 and its nanosecond. Built over an installed library by
 *     cc local.c $(pkg-config --cflags --libs movaliren) */
#define _DEFAULT_SOURCE
#include <movaliren.h>
#include <stdio.h>
#include <time.h>

int main(void)
{
    static const struct movaliren_iso8601_config milliseconds = MOVALIREN_ISO8601_DECIMALS(3);
    char line[MOVALIREN_ISO8601_SIZE];
    struct timespec now;
    struct tm local;
    clock_gettime(CLOCK_REALTIME, &now);
    do {
        localtime_r(&now.tv_sec, &local);
        ptrdiff_t n = MOVALIREN_TO_ARRAY(line, movaliren_iso8601_with_local, &milliseconds, now.tv_sec,
            (uint32_t)now.tv_nsec, local.tm_gmtoff);
        printf("%s opened\n", n < 0 ? movaliren_strerror(n) : line);
    } while (scanf("%ld %ld", &now.tv_sec, &now.tv_nsec) == 2);
}
