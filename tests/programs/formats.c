/* Formats of whole numbers, texts and bytes: flags, widths, precisions and sizes. */
#include <inttypes.h>
#include <limits.h>
#include <stddef.h>
#include <stdio.h>
#include <string.h>

#pragma GCC diagnostic ignored "-Wformat-zero-length"
#pragma GCC diagnostic ignored "-Wformat-truncation"
#pragma GCC diagnostic ignored "-Wformat"

static const int values[] = {0, 1, -1, 8, 255, -4096, INT_MAX, INT_MIN};
static const char *const formats[] = {
    "%d", "%5d|", "%-5d|", "%05d|", "%+d", "% d", "%.3d", "%.0d|", "%8.3d|", "%-8.3d|", "%08.3d|", "%+.0d|", "%u", "%o", "%#o",
    "%.5o", "%#.5o", "%x", "%X", "%#x", "%#X", "%#10x|", "%#-10x|", "%#010x|", "%.0x|", "%hhd", "%hhu", "%hd", "%hu", "%i", "%c",
};

#pragma GCC diagnostic ignored "-Wformat-nonliteral"

static void sizes(void) {
    printf("%lld %llu %llx %llo\n", LLONG_MIN, ULLONG_MAX, 0x123456789abcdefULL, ULLONG_MAX);
    printf("%jd %ju %zu %td\n", INTMAX_MAX, UINTMAX_MAX, sizeof(uint64_t), (ptrdiff_t)-8);
    printf("%" PRId64 " %" PRIu32 " %" PRIx16 " %" PRIi8 "\n", INT64_C(-5), UINT32_C(4000000000), (uint16_t)0xbeef, (int8_t)-3);
    printf("%*d|%-*d|%*d|%.*d|%.*d|\n", 6, 1, 6, 2, -6, 3, 4, 5, -1, 6);
}

static void texts(void) {
    char unended[3] = {'a', 'b', 'c'};
    printf("%s|%10s|%-10s|%.2s|%10.2s|%.0s|%.*s\n", "text", "text", "text", "text", "text", "text", 3, unended);
    printf("%c|%5c|%-5c|%%|%5%|%c%c\n", 'x', 'y', 'z', 'a', 'b');
}

static void counts(void) {
    signed char least = 0;
    short little = 0;
    int usual = 0;
    long long large = 0;
    char room[8];
    int length = printf("one%hhn two%hn three%n four%lln\n", &least, &little, &usual, &large);
    printf("%d %d %d %d %lld\n", length, least, little, usual, large);
    length = snprintf(room, sizeof room, "%s %d", "a longer text", 12);
    printf("%d %s\n", length, room);
    printf("%d %d\n", snprintf(NULL, 0, "%020d", 1), snprintf(room, sizeof room, ""));
}

int main(void) {
    for (size_t i = 0; i < sizeof values / sizeof *values; i++) {
        for (size_t j = 0; j < sizeof formats / sizeof *formats; j++) {
            if (strchr(formats[j], 'c') && values[i] < ' ') continue;
            printf(formats[j], values[i]);
            putchar(' ');
        }
        putchar('\n');
    }
    sizes();
    texts();
    counts();
    return 0;
}
