/* Four threads, each with 50,000 calls of each kind, or as many as the argument says. */
#include "movaliren.h"

#include <pthread.h>
#include <stdlib.h>

enum { THREADS = 4 };

static long calls = 50000;
static struct movaliren_description form;

#define IS_WRONG(call, text) ((call) != sizeof text - 1 || memcmp(buffer, text, sizeof text - 1) != 0)

static void *work(void *argument)
{
    static const char text[] = "22 November 2026, 01:02:03 +0000";
    static const struct movaliren_moment moment = { 2026, 11, 22, 1, 2, 3, 1, 0, 0, 0 };
    char buffer[64];
    struct movaliren_utc_moment read;
    struct movaliren_read_error error;
    long *wrong = argument;
    for (long i = 0; i < calls; i++) {
        *wrong += IS_WRONG(movaliren_rfc3339(&moment, buffer, sizeof buffer), "2026-11-22T01:02:03.000000001Z");
        *wrong += IS_WRONG(movaliren_rfc2822(&moment, buffer, sizeof buffer), "Sun, 22 Nov 2026 01:02:03 +0000");
        *wrong += IS_WRONG(movaliren_stamp_utc(0, 1, buffer, sizeof buffer), "1970-01-01T00:00:00.000000001Z");
        *wrong += IS_WRONG(movaliren_description_format(&form, &moment, buffer, sizeof buffer), text);
        *wrong += movaliren_description_read_utc(&form, text, sizeof text - 1, &read, &error) != 0 || read.seconds != 1795309323;
    }
    return NULL;
}

int main(int argc, char **argv)
{
    static const char pattern[] = "%d %B %Y, %H:%M:%S %z";
    struct movaliren_parse_error error;
    pthread_t threads[THREADS];
    long wrong[THREADS] = { 0 }, all = movaliren_description_parse_strftime(&form, pattern, sizeof pattern - 1, &error);
    if (argc > 1)
        calls = atol(argv[1]);
    for (int i = 0; i < THREADS; i++)
        if (pthread_create(&threads[i], NULL, work, &wrong[i]))
            return 1;
    for (int i = 0; i < THREADS; i++) {
        pthread_join(threads[i], NULL);
        all += wrong[i];
    }
    printf("threads: %ld wrong\n", all);
    return all != 0;
}
