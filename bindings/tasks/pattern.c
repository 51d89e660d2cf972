/* A moment by the pattern in the syntax of strftime that a file has, whose path is the argument. */
#include <movaliren.h>

int main(int count, char **words)
{
    char text[512], line[512];
    struct movaliren_description pattern;
    struct movaliren_parse_error error;
    FILE *file = count > 1 ? fopen(words[1], "r") : NULL;
    if (!file || !fgets(text, sizeof text, file))
        return 1;
    fclose(file);
    if (movaliren_description_parse_strftime(&pattern, text, strcspn(text, "\n"), &error) < 0) {
        MOVALIREN_TO_ARRAY(line, movaliren_parse_strerror_r, &error);
        return fprintf(stderr, "%s: %s\n", words[1], line) > 0;
    }
    MOVALIREN_TO_ARRAY(line, movaliren_description_format_utc, &pattern, 1795362906, 0);
    return puts(line) < 0;
}
