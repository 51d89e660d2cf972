/* The dates of mail on the standard input, as RFC 3339, or why they are none. */
#include <movaliren.h>

int main(void)
{
    char date[1000], text[MOVALIREN_WORDS_SIZE];
    struct movaliren_moment moment;
    struct movaliren_read_error error;
    while (fgets(date, sizeof date, stdin))
        if (movaliren_read_rfc2822_lenient(date, strcspn(date, "\n"), &moment, &error) == 0) {
            MOVALIREN_TO_ARRAY(text, movaliren_rfc3339, &moment);
            puts(text);
        } else {
            MOVALIREN_TO_ARRAY(text, movaliren_read_strerror_r, &error);
            printf("no date: %s\n", text);
        }
}
