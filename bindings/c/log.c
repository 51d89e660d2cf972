/* Eight threads log the clock with milliseconds. Built over an installed library by
 *     cc log.c -pthread $(pkg-config --cflags --libs movaliren) */
#define _POSIX_C_SOURCE 200809L
#include <movaliren.h>
#include <pthread.h>
#include <stdio.h>
#include <time.h>

static const struct movaliren_iso8601_config milliseconds = MOVALIREN_ISO8601_DECIMALS(3);

static void *work(void *name)
{
    char stamp[MOVALIREN_ISO8601_SIZE];
    struct timespec now;
    for (int line = 0; line < 3 && clock_gettime(CLOCK_REALTIME, &now) == 0; line++) {
        ptrdiff_t n = MOVALIREN_TO_ARRAY(
            stamp, movaliren_iso8601_with_utc, &milliseconds, now.tv_sec, (uint32_t)now.tv_nsec);
        printf("%s %s line %d\n", n < 0 ? movaliren_strerror(n) : stamp, (char *)name, line);
    }
    return 0;
}

int main(void)
{
    static char names[8][2] = { "a", "b", "c", "d", "e", "f", "g", "h" };
    pthread_t threads[8];
    for (int i = 0; i < 8; i++)
        if (pthread_create(&threads[i], 0, work, names[i]))
            return 1;
    for (int i = 0; i < 8; i++)
        pthread_join(threads[i], 0);
}
