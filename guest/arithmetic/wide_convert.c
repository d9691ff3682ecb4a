/* Conversions of numbers of 64 bits from and to doubles and floats. The routines for doubles are called by their names. */
#include "wide.h"
#include <stdbool.h>

enum { FRACTION_BITS = 52, EXPONENTS = 2048, BIAS = 1023 };

double __adddf3(double, double);
double __extendsfdf2(float);
double __floatsidf(int32_t);
double __floatunsidf(word);
float __truncdfsf2(double);
wide __fixunsdfdi(double);
float __floatundisf(wide);

typedef union {
    double number;
    wide bits;
} both;

/* The upper word's double is exact, so is 2^32 times that, and the sum is rounded once. */
static double sum_of_words(double high, word low) {
    both shifted = {high};
    if (shifted.bits == 0) return __floatunsidf(low);
    shifted.bits += (wide)32 << FRACTION_BITS;
    return low == 0 ? shifted.number : __adddf3(shifted.number, __floatunsidf(low));
}

double __floatdidf(int64_t number) {
    return sum_of_words(__floatsidf((int32_t)(number >> 32)), lower((wide)number));
}

double __floatundidf(wide number) {
    return sum_of_words(__floatunsidf(upper(number)), lower(number));
}

/* As a double a number above 53 bits would be rounded, and then again. So of 11 bits, which are far below a float's last
 * one, is kept whether there are any. */
float __floatundisf(wide number) {
    wide low = number & 0x7ff;
    if (number >> (FRACTION_BITS + 1) != 0 && low != 0) number = (number - low) | 0x800;
    return __truncdfsf2(__floatundidf(number));
}

float __floatdisf(int64_t number) {
    return number < 0 ? -__floatundisf(-(wide)number) : __floatundisf((wide)number);
}

static bool is_nan(both number) {
    return number.bits << 1 > (wide)(EXPONENTS - 1) << (FRACTION_BITS + 1);
}

static bool is_negative(both number) {
    return number.bits >> 63 != 0;
}

/* A magnitude toward zero, or the limit where it is greater. */
static wide whole(both number, wide limit) {
    int exponent = (int)(number.bits >> FRACTION_BITS) % EXPONENTS - BIAS;
    if (exponent < 0) return 0;
    if (exponent > 63) return limit;
    wide one = (wide)1 << FRACTION_BITS, mantissa = (number.bits & (one - 1)) | one;
    wide size = exponent < FRACTION_BITS ? mantissa >> (FRACTION_BITS - exponent) : mantissa << (exponent - FRACTION_BITS);
    return size < limit ? size : limit;
}

/* Toward zero. A number that doesn't fit becomes the nearest one that does, and a NaN the greatest one, as of words. */
int64_t __fixdfdi(double number) {
    both given = {number};
    wide limit = (wide)1 << 63;
    if (is_nan(given) || !is_negative(given)) return (int64_t)whole(given, limit - 1);
    return (int64_t)-whole(given, limit);
}

wide __fixunsdfdi(double number) {
    both given = {number};
    return is_negative(given) && !is_nan(given) ? 0 : whole(given, UINT64_MAX);
}

int64_t __fixsfdi(float number) {
    return __fixdfdi(__extendsfdf2(number));
}

wide __fixunssfdi(float number) {
    return __fixunsdfdi(__extendsfdf2(number));
}
