/* A value that a format refuses, and a text that is no description, are told. */
#include <movaliren.h>

int main(void)
{
    const struct movaliren_moment late = { .year = 10000, .month = 1, .day = 1 };
    char line[MOVALIREN_RFC3339_SIZE], words[MOVALIREN_WORDS_SIZE];
    struct movaliren_description form;
    struct movaliren_parse_error error;
    const ptrdiff_t n = movaliren_rfc3339(&late, line, sizeof line);
    if (n < 0)
        printf("no text: %s\n", movaliren_strerror(n));
    if (movaliren_description_parse_strftime(&form, "at %Q", 5, &error) < 0) {
        MOVALIREN_TO_ARRAY(words, movaliren_parse_strerror_r, &error);
        printf("no description: %s\n", words);
    }
}
