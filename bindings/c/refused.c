/* Mistakes that do not compile with the warnings of -Wextra as errors, by the number TRAP; 0 is the program without one. */
#include "movaliren.h"

#ifndef TRAP
#define TRAP 0
#endif

ptrdiff_t trapped(char *line, struct movaliren_description *form, const char *text, struct movaliren_parse_error *fault);

ptrdiff_t trapped(char *line, struct movaliren_description *form, const char *text, struct movaliren_parse_error *fault)
{
    char array[MOVALIREN_RFC3339_SIZE];
    struct movaliren_moment moment = { 2026, 5, 6, 7, 8, 9, 0, 0, 0, 0 };
    ptrdiff_t n = MOVALIREN_TO_ARRAY(array, movaliren_rfc3339, &moment);
    if (movaliren_description_parse(form, text, strlen(text), fault) < 0)
        line[0] = 0;
#if TRAP == 1 /* a pointer in the place of an array: its size is not that of the buffer */
    n = MOVALIREN_TO_ARRAY(line, movaliren_rfc3339, &moment);
#elif TRAP == 2 /* a choice of ISO 8601 in the place of a format of lines */
    struct movaliren_lines lines = MOVALIREN_LINES(MOVALIREN_ISO8601_BY_WEEK);
    n = movaliren_lines_text(&lines, 0, 0, array, sizeof array);
#elif TRAP == 3 /* a description whose error nobody tests */
    movaliren_description_parse(form, text, strlen(text), fault);
#elif TRAP == 4 /* no moment */
    n = movaliren_rfc3339(NULL, array, sizeof array);
#elif TRAP == 5 /* a text whose error nobody tests */
    struct movaliren_read_error error;
    movaliren_read_rfc3339("", 0, &moment, &error);
#endif
    return n;
}
