/* Errors of formatted output (POSIX, fprintf): more bytes than an int counts, and a stream that isn't for writing. */
#include <errno.h>
#include <limits.h>
#include <stdio.h>

#pragma GCC diagnostic ignored "-Wformat"
#pragma GCC diagnostic ignored "-Wformat-overflow"
#pragma GCC diagnostic ignored "-Wformat-truncation"
#pragma GCC diagnostic ignored "-Wformat-nonliteral"

static char room[20];

static void say(const char *format, int count) {
    printf("%s: %d, %d\n", format, count, count < 0 && errno == EOVERFLOW);
    errno = 0;
}

int main(void) {
    static const char *const formats[] = {"abc%2147483648d", "%.2147483648d", "%99999999999999999999s", "%-4294967301d", "%.9999999999f"};
    for (size_t i = 0; i < sizeof formats / sizeof *formats; i++) say(formats[i], snprintf(room, sizeof room, formats[i], 1, 1));
    say("%.*d", snprintf(room, sizeof room, "%.*d", INT_MIN, 1));
    say("%.2147483647s", snprintf(room, sizeof room, "%.2147483647s", "short"));
    int count = fprintf(stdin, "to where nobody reads");
    printf("for reading: %d, %d, %d\n", count, errno == EBADF, ferror(stdin) != 0);
    return 0;
}
