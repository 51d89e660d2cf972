/* Prints the bytes of the stack that calls take, on a stack that is painted before each, and ends with status 1 where one
 * takes more than is said of it in movaliren.h. */
#define _GNU_SOURCE
#include "movaliren.h"

#include <pthread.h>
#include <stdlib.h>

enum { STACK = 1 << 18, PAINT = 0xa5 };

static unsigned char stack[STACK];
static char buffer[400], deep[512], many[121];
static struct movaliren_parse_error parse_error;
static struct movaliren_read_error read_error;
static struct movaliren_moment read;
static const struct movaliren_moment moment = { 1997, 11, 12, 9, 55, 6, 120000000, -6, 0, 0 };
static const struct movaliren_iso8601_config widest = { 5, 1, 2, 255, 1, 1, 1, 0 };
static struct movaliren_description form, in_lists;

#define CALL(name, call) \
    static ptrdiff_t name(void) { return call; }
#define TEXT(text) text, sizeof text - 1
#define TO_BUFFER buffer, sizeof buffer
#define TO_MOMENT &read, &read_error

CALL(nothing, buffer[0])
CALL(rfc3339, movaliren_rfc3339(&moment, TO_BUFFER))
CALL(rfc2822_local, movaliren_rfc2822_local(879350106, 0, -21600, TO_BUFFER))
CALL(iso8601_with, movaliren_iso8601_with(&widest, &moment, TO_BUFFER))
CALL(read_rfc3339, movaliren_read_rfc3339(TEXT("1997-11-12T09:55:06.12-06:00"), TO_MOMENT))
CALL(read_rfc2822, movaliren_read_rfc2822(TEXT("Fri, 21 Nov 1997 09:55:06 -0600"), TO_MOMENT))
CALL(read_mail, movaliren_read_rfc2822_lenient(TEXT("21 Nov 97 (a (nested) comment) 09:55:06 EST"), TO_MOMENT))
CALL(read_iso8601_with, movaliren_read_iso8601_with(&widest, buffer, 284, TO_MOMENT))
CALL(parse_strftime, movaliren_description_parse_strftime(&form, TEXT("%d/%b/%Y:%H:%M:%S %z"), &parse_error))
CALL(parse_deep, movaliren_description_parse(&in_lists, deep, strlen(deep), &parse_error))
CALL(format_deep, movaliren_description_format(&in_lists, &moment, TO_BUFFER))
CALL(read_form, movaliren_description_read(&form, TEXT("10/Oct/2000:13:55:36 -0700"), TO_MOMENT))
CALL(read_none, -1 - movaliren_description_read(&form, TEXT("10/Okt/2000:13:55:36"), TO_MOMENT))
CALL(read_words, movaliren_read_strerror_r(&read_error, TO_BUFFER))
CALL(strftime_local, movaliren_format_strftime_local(TEXT("%a, %d %b %Y %T %:z"), 879350106, 0, -21600, TO_BUFFER))
CALL(brackets_utc, movaliren_format_brackets_utc(deep, strlen(deep), 879350106, 0, TO_BUFFER))
CALL(strftime_of_60, movaliren_format_strftime_utc(many, 120, 879350106, 0, TO_BUFFER))
CALL(parse_none, -1 - movaliren_description_parse_strftime(&form, TEXT("%d %\x7f"), &parse_error))
CALL(parse_words, movaliren_parse_strerror_r(&parse_error, TO_BUFFER))

/* The most bytes that each call may take. */
static const struct {
    const char *name;
    ptrdiff_t (*call)(void);
    size_t most;
} calls[] = {
    { "nothing", nothing, 0 },
    { "rfc3339", rfc3339, 512 },
    { "rfc2822_local", rfc2822_local, 512 },
    { "read_rfc3339", read_rfc3339, 1024 },
    { "read_rfc2822", read_rfc2822, 1024 },
    { "read_rfc2822_lenient", read_mail, 1024 },
    { "iso8601_with, the longest text", iso8601_with, 1024 },
    { "read_iso8601_with, of that text", read_iso8601_with, 2048 },
    { "description_parse_strftime", parse_strftime, 4096 },
    { "description_parse, of 32 lists in one another", parse_deep, 4096 },
    { "description_format", format_deep, 2048 },
    { "description_read", read_form, 4096 },
    { "description_read, of no text", read_none, 4096 },
    { "read_strerror_r", read_words, 4096 },
    { "format_strftime_local", strftime_local, 4096 },
    { "format_brackets_utc, of 32 lists in one another", brackets_utc, 4096 },
    { "format_strftime_utc, of 60 items", strftime_of_60, 4096 },
    { "description_parse_strftime, of none", parse_none, 4096 },
    { "parse_strerror_r", parse_words, 4096 },
};

static void *run(void *call)
{
    if (calls[(size_t)call].call() < 0)
        abort();
    return NULL;
}

/* The bytes of the painted stack that a thread has changed which makes the call twice: the first finds symbols. */
static size_t taken(size_t call)
{
    size_t unchanged = 0;
    for (int round = 0; round < 2; round++) {
        pthread_attr_t attributes;
        pthread_t thread;
        memset(stack, PAINT, STACK);
        pthread_attr_init(&attributes);
        if (pthread_attr_setstack(&attributes, stack, STACK) || pthread_create(&thread, &attributes, run, (void *)call))
            abort();
        pthread_join(thread, NULL);
        pthread_attr_destroy(&attributes);
    }
    while (unchanged < STACK && stack[unchanged] == PAINT)
        unchanged++;
    return STACK - unchanged;
}

int main(void)
{
    int wrong = 0;
    for (int level = 0; level < 32; level++)
        strcat(deep, "[first [");
    for (int item = 0; item < 14; item++)
        strcat(deep, "[month]");
    for (int level = 0; level < 32; level++)
        strcat(deep, "]]");
    memset(many, '%', 120);
    const size_t least = taken(0);
    for (size_t i = 1; i < sizeof calls / sizeof *calls; i++) {
        const size_t bytes = taken(i) - least;
        printf("%s: %zu bytes of the stack, of at most %zu\n", calls[i].name, bytes, calls[i].most);
        wrong += bytes > calls[i].most;
    }
    return wrong != 0;
}
