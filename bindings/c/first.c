#define _DEFAULT_SOURCE
#include <movaliren.h>
#include <stdio.h>
#include <time.h>

int main(void)
{
    static const char format[] = "%Y-%m-%d %H:%M:%S %:z";
    char line[64];
    time_t now = time(NULL);
    struct tm local;
    localtime_r(&now, &local);
    ptrdiff_t n = MOVALIREN_TO_ARRAY(
        line, movaliren_format_strftime_local, format, strlen(format), now, 0, local.tm_gmtoff);
    printf("%s started\n", n < 0 ? movaliren_strerror(n) : line);
}
