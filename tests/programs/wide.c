/* Wide characters and texts in formats (C11, 7.21.6.1): their bytes, and the error of one that has none. */
#include <errno.h>
#include <stdio.h>
#include <wchar.h>

static const wchar_t no_byte[] = {'a', 0x20ac, 'b', 0};

static void texts(void) {
    const wchar_t unended[3] = {'a', 'b', 'c'};
    printf("%ls|%6ls|%-6ls|%.2ls|%6.2ls|%.0ls|\n", L"wide", L"ab", L"cd", L"wide", L"wide", L"wide");
    printf("%.3ls|%.*ls|%s%ls\n", unended, 3, unended, "narrow ", L"and wide");
    printf("%lc%lc|%4lc|%-4lc|\n", (wint_t)'x', (wint_t)'y', (wint_t)'z', (wint_t)'w');
    printf("%S %C\n", L"by capitals", (wint_t)'c');
}

static void errors(void) {
    char room[20];
    errno = 0;
    int length = snprintf(room, sizeof room, "%.1ls", no_byte);
    printf("before it: %d, %d, %s\n", length, errno == EILSEQ, room);
    length = snprintf(room, sizeof room, "%ls", no_byte);
    printf("a text: %d, %d\n", length, errno == EILSEQ);
    errno = 0;
    length = snprintf(room, sizeof room, "%lc", (wint_t)0x20ac);
    printf("a character: %d, %d\n", length, errno == EILSEQ);
}

int main(void) {
    texts();
    errors();
    return 0;
}
