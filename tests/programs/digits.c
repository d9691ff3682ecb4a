/* The digits of numbers with a fraction: exactly those that a format asks for, at every size and precision. */
#include <float.h>
#include <math.h>
#include <stdint.h>
#include <stdio.h>
#include <string.h>

/* How many numbers are tried in every format: these below, and then drawn ones. More where a test has the time for it. */
#ifndef TRIED
#define TRIED 10
#endif

enum { A_ROW = 5, SHOWN = 12 };

static const double extremes[] = {DBL_MAX, DBL_MIN, 5e-324, 2.225073858507201e-308, 1e300, 1e-300};
static const double values[] = {
    0.0, -0.0, 1.0 / 3, 0.1, 0.5, 1.5, 2.5, 0.05, 1.005, 0.95, 8.5, 9.5, 99.5, 123456.789, 999999.5, 9999995.0, 999999999.5,
    1000000000.5, 1e15, 1e16, 1e17, 1e22, 1e23, 4503599627370497.5, 123456789012345678.0, 0.0001, 0.00001, 0.00012345, 1e100,
    0.49966484308242798,
};
static const char *const formats[] = {
    "%f", "%.0f", "%.1f", "%.2f", "%.17g", "%g", "%.1g", "%.10g", "%e", "%.0e", "%.20e", "%.30g", "%a", "%.0a", "%.3a", "%A", "%G",
    "%22.3f|", "%-22.3f|", "%022.3f|", "%+.2e", "% .2f", "%#.0f", "%#.0e", "%+a", "%030a|", "%.20a",
};
static const char *const long_formats[] = {"%Lf", "%.17Lg", "%.40Le", "%.3Lf", "%Lg", "%25.10Lf|"};

#pragma GCC diagnostic ignored "-Wformat-nonliteral"

static uint32_t sum;

/* A number of all the bytes so far. */
static void add(const char *text) {
    for (; *text; text++) sum = (sum ^ (unsigned char)*text) * UINT32_C(16777619);
}

static uint32_t draw(void) {
    static uint32_t state = 1;
    state ^= state << 13;
    state ^= state >> 17;
    return state ^= state << 5;
}

/* Of any size, or near one. */
static double drawn(int is_near_one) {
    uint64_t bits = (uint64_t)draw() << 32 | draw();
    double value;
    if (is_near_one) bits = (bits & ~(UINT64_C(0x7ff) << 52)) | (uint64_t)(1000 + draw() % 64) << 52;
    memcpy(&value, &bits, sizeof value);
    return isfinite(value) ? value : 0;
}

static void add_all(double value) {
    char text[400];
    for (size_t i = 0; i < sizeof formats / sizeof *formats; i++) {
        snprintf(text, sizeof text, formats[i], value);
        add(text);
    }
    for (size_t i = 0; i < sizeof long_formats / sizeof *long_formats; i++) {
        snprintf(text, sizeof text, long_formats[i], (long double)value);
        add(text);
    }
}

int main(void) {
    static char all[1200];
    const int count = sizeof values / sizeof *values;
    for (int i = 0; i < count; i++) {
        for (int j = 0; j < SHOWN; j++) {
            printf(formats[j], values[i]);
            putchar(j < SHOWN - 1 ? ' ' : '\n');
        }
    }
    for (size_t i = 0; i < sizeof extremes / sizeof *extremes; i++) printf("%.17g %.30e %a\n", extremes[i], extremes[i], extremes[i]);
    for (int i = 0; i < TRIED; i++) {
        add_all(i < count ? values[i] : drawn(i % A_ROW));
        if (i % A_ROW == A_ROW - 1) printf("%d tried: %08x\n", i + 1, (unsigned)sum);
    }
    int length = snprintf(all, sizeof all, "%.1074f", 5e-324);
    printf("%d digits, %s\n", length - 2, all + length - 40);
    printf("%f %F %E %010f|%-10f|%+f\n", INFINITY, -INFINITY, INFINITY, INFINITY, INFINITY, INFINITY);
    printf("%.4096f", 0.25);
    printf("\n%Lf %.3Lf %Lg\n", 9223372036854775809.0L, 0.0625L, 1e18L + 0.5L);
    return 0;
}
