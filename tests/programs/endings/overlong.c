/* Widths and precisions up to the greatest int: an error where they make more bytes than an int counts, and at once. On a PC they
   take gigabytes, so this isn't compared with one. */
#include <errno.h>
#include <limits.h>
#include <stdio.h>

#pragma GCC diagnostic ignored "-Wformat"
#pragma GCC diagnostic ignored "-Wformat-overflow"
#pragma GCC diagnostic ignored "-Wformat-truncation"
#pragma GCC diagnostic ignored "-Wformat-nonliteral"

static char room[20];

static void say(const char *format, int count) {
    printf("%s %d%s\n", format, count, count < 0 && errno == EOVERFLOW ? " EOVERFLOW" : "");
    errno = 0;
}

int main(void) {
    static const char *const formats[] = {"%.2147483647f", "%.2147483642e", "%.2147483647a", "%#.2147483647g", "%.2147483647g"};
    for (size_t i = 0; i < sizeof formats / sizeof *formats; i++) say(formats[i], snprintf(room, sizeof room, formats[i], 1e-5));
    say("%*d", snprintf(room, sizeof room, "%*d", INT_MIN, 1));
    say("%+.*d", snprintf(room, sizeof room, "%+.*d", INT_MAX, 1));
    say("x%*d", snprintf(room, sizeof room, "x%*d", INT_MAX, 1));
    return 0;
}
