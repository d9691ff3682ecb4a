/* Formats whose values have numbers, in any order and more than once, and the flag of thousands (POSIX, fprintf). */
#include <stdio.h>

#pragma GCC diagnostic ignored "-Wformat"

static void orders(void) {
    printf("%2$s %1$s\n", "world", "hello");
    printf("%7$s%6$s%5$s%4$s%3$s%2$s%1$s\n", "a", "b", "c", "d", "e", "f", "g");
    printf("%1$s %1$.1s %1$5s|%1$-5s|\n", "abc");
    printf("%1$d %1$hhd %1$x %1$#o\n", 300);
}

/* Each is passed in its own way, and some of them take two words. */
static void kinds(void) {
    printf("%4$f %1$d %7$lld %2$lld %6$c %3$d %5$s\n", 1, -2LL, 3, 4.5, "five", '6', 7000000000LL);
    printf("%3$.3Lf %1$c %2$g\n", 'a', 0.125, 2.5L);
    printf("%2$d%% of %1$s, for $%3$d\n", "it", 5, 12);
}

static void widths(void) {
    int count = 0, other = 0;
    printf("%1$*2$.*3$f|%1$-*2$.*3$f|%1$*4$.1f|\n", 3.14159, 10, 2, -7);
    printf("%3$.*1$s|%3$*2$s|\n", 2, 5, "xyz");
    printf("%1$d%2$n%1$d%3$n\n", 1234, &count, &other);
    printf("%d %d, cost $%d\n", count, other, 5);
}

int main(void) {
    orders();
    kinds();
    widths();
    printf("%'d %'10d|%-'8u|%'.2f\n", 1234567, -1234567, 1234u, 1234567.5);
    printf("%1$'d %2$'+d\n", 1234567, 7654321);
    return 0;
}
