/* Holds a reader to a file of conformance/: the format's name and the file are the arguments. Each text ends where its
 * memory ends, and then begins where it begins. Each value, and how many bytes are right of each other text, are those of
 * the file. By a description the place of a fault is that of its component, and is not compared. Prints what is wrong, and
 * then ends with status 1. */
#define _GNU_SOURCE
#include "movaliren.h"

#include <stdlib.h>
#include <sys/mman.h>

enum { LINE = 1 << 16, PAGE = 4096, ROOM = 4 * PAGE };

typedef ptrdiff_t part_reader(
    const void *text, size_t text_len, struct movaliren_moment *moment, struct movaliren_read_error *error);
typedef ptrdiff_t utc_reader(
    const void *text, size_t text_len, struct movaliren_utc_moment *moment, struct movaliren_read_error *error);

typedef ptrdiff_t parser(struct movaliren_description *description, const void *text, size_t text_len,
    struct movaliren_parse_error *error);

/* The description of the line that is read. */
static struct movaliren_description form;

static ptrdiff_t by_form(
    const void *text, size_t text_len, struct movaliren_moment *moment, struct movaliren_read_error *error)
{
    return movaliren_description_read(&form, text, text_len, moment, error);
}

static ptrdiff_t by_form_in_utc(
    const void *text, size_t text_len, struct movaliren_utc_moment *moment, struct movaliren_read_error *error)
{
    return movaliren_description_read_utc(&form, text, text_len, moment, error);
}

static const struct {
    const char *name;
    part_reader *by_parts;
    utc_reader *in_utc;
    parser *parse; /* of the descriptions in the first column, if there are any */
} readers[] = {
    { "rfc3339", movaliren_read_rfc3339, movaliren_read_rfc3339_utc, NULL },
    { "rfc3339-lenient", movaliren_read_rfc3339_lenient, movaliren_read_rfc3339_lenient_utc, NULL },
    { "rfc2822", movaliren_read_rfc2822, movaliren_read_rfc2822_utc, NULL },
    { "mail", movaliren_read_rfc2822_lenient, movaliren_read_rfc2822_lenient_utc, NULL },
    { "strftime", by_form, by_form_in_utc, movaliren_description_parse_strftime },
    { "brackets", by_form, by_form_in_utc, movaliren_description_parse },
};

/* Memory between two pages that nothing may touch. */
static char *room;

/* The byte that an escape or a letter of a line stands for, and the place after it. */
static const char *unescaped(const char *from, char *byte)
{
    static const char named[] = "t\tn\nr\r\\\\";
    const char *found;
    if (*from != '\\') {
        *byte = *from;
        return from + 1;
    }
    if (from[1] == 'x') {
        const char digits[] = { from[2], from[3], 0 };
        *byte = (char)strtol(digits, NULL, 16);
        return from + 4;
    }
    found = strchr(named, from[1]);
    *byte = found[1];
    return from + 2;
}

/* Whether a text of this place is read as the value, or refused there. Texts without an offset are in UTC. */
static int is_held(size_t reader, const char *text, size_t len, const char *wanted)
{
    char answer[100];
    struct movaliren_moment moment = { 0, 0, 0, 0, 0, 0, 0, 0, 0, 0 };
    struct movaliren_utc_moment utc = { 0, 0 };
    struct movaliren_read_error error = { 0, 0, 0, 0, 0, 0 }, same = error;
    const ptrdiff_t by_parts = readers[reader].by_parts(text, len, &moment, &error);
    const ptrdiff_t in_utc = readers[reader].in_utc(text, len, &utc, &same);
    const int is_alone = readers[reader].parse && by_parts == MOVALIREN_ERROR_UNDETERMINED;
    if (in_utc == 0)
        snprintf(answer, sizeof answer, "%lld %lu %ld", (long long)utc.seconds, (unsigned long)utc.nanosecond,
            moment.offset_hours * 3600L + moment.offset_minutes * 60L + moment.offset_seconds);
    else
        snprintf(answer, sizeof answer, "%zu", same.at);
    if ((is_alone || (by_parts == in_utc && error.at == same.at)) && (in_utc == 0 || in_utc == MOVALIREN_ERROR_NOT_READ)
        && (strcmp(answer, wanted) == 0 || (readers[reader].parse && in_utc < 0 && same.at <= len && !strchr(wanted, ' '))))
        return 1;
    printf("%s: %.*s: %s, not %s\n", readers[reader].name, (int)len, text, answer, wanted);
    return 0;
}

/* Reads the description that stands in front of a line, and returns what follows it. */
static const char *after_description(size_t reader, const char *line)
{
    struct movaliren_parse_error error;
    const size_t len = strcspn(line, "\t");
    if (!readers[reader].parse)
        return line;
    if (readers[reader].parse(&form, line, len, &error) < 0)
        printf("%.*s: refused\n", (int)len, line);
    return line + len + 1;
}

/* Whether a line of the file is held at both ends of the memory. */
static int is_line_held(size_t reader, const char *line)
{
    static char text[LINE];
    const char *from = strchr(after_description(reader, line), '\t') + 1, *end = strchr(from, '\t'), *rule = strchr(end + 1, '\t');
    size_t len = 0;
    char wanted[100];
    while (from < end)
        from = unescaped(from, &text[len++]);
    snprintf(wanted, sizeof wanted, "%.*s", (int)(rule - end - 1), end + 1);
    if (len > ROOM)
        return 0;
    memcpy(room + ROOM - len, text, len);
    if (!is_held(reader, room + ROOM - len, len, wanted))
        return 0;
    memcpy(room, text, len);
    return is_held(reader, room, len, wanted);
}

int main(int argc, char **argv)
{
    static char line[LINE];
    size_t reader = 0;
    long count = 0, wrong = 0;
    FILE *file = argc == 3 ? fopen(argv[2], "r") : NULL;
    char *pages = mmap(NULL, ROOM + 2 * PAGE, PROT_NONE, MAP_PRIVATE | MAP_ANONYMOUS, -1, 0);
    room = pages + PAGE;
    while (reader < sizeof readers / sizeof *readers && argc == 3 && strcmp(readers[reader].name, argv[1]) != 0)
        reader++;
    if (!file || reader == sizeof readers / sizeof *readers || pages == MAP_FAILED || mprotect(room, ROOM, PROT_READ | PROT_WRITE))
        return 2;
    while (fgets(line, sizeof line, file))
        if (strncmp(line, "# ", 2) != 0) {
            count++;
            wrong += !is_line_held(reader, line);
        }
    fclose(file);
    printf("%s: %ld texts, %ld wrong\n", argv[1], count, wrong);
    return wrong != 0 || count == 0;
}
