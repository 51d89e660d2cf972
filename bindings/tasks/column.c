/* A line of RFC 3339 for each number of a column of milliseconds since 1970. */
#include <movaliren.h>

static const int64_t numbers[] = { 0, 1795362906120, -1, 253402300799999 };

int main(void)
{
    const struct movaliren_lines lines = MOVALIREN_LINES(MOVALIREN_LINES_RFC3339);
    const struct movaliren_column column = MOVALIREN_COLUMN(numbers, 4, MOVALIREN_UNIT_MILLISECOND);
    char buffer[4096];
    const struct movaliren_progress progress = movaliren_lines_to_file(&lines, &column, stdout, buffer, sizeof buffer);
    if (progress.error)
        fprintf(stderr, "row %zu: %s\n", progress.moments, movaliren_strerror(progress.error));
    return progress.error != 0;
}
