/*
 * Each routine of the kit's arithmetic by its own instructions, beside this machine: for tests/guests/arithmetic, which makes
 * routines.h of a linked program. Words: how many pairs, the seed, and names of routines.
 *
 * A routine gets all hard pairs and then drawn ones, with any bits in the registers that it doesn't take. Looked at are its
 * result, the registers that a call keeps, and errno.
 */
#include <errno.h>
#include <math.h>
#include <stdbool.h>
#include <stdint.h>
#include <stdio.h>
#include <stdlib.h>
#include <string.h>
#include "routines.h"

enum { RA = 1, SP = 2, TP = 4, A0 = 10, A1, A2, A3, REGISTERS = 32, MOST_TOLD = 10 };

/* ---- operands */

static uint64_t state;

static uint64_t drawn(void) { /* splitmix64 */
    uint64_t z = state += 0x9e3779b97f4a7c15;
    z = (z ^ z >> 30) * 0xbf58476d1ce4e5b9;
    z = (z ^ z >> 27) * 0x94d049bb133111eb;
    return z ^ z >> 31;
}

static uint64_t below(uint64_t limit) { return drawn() % limit; }

/* A binary format: how many bits its fractions and exponents have. */
typedef struct { int fraction, exponent; } format;

static const format DOUBLE = {52, 11}, FLOAT = {23, 8};

static uint64_t bits_of(format f, uint64_t sign, int64_t exponent, uint64_t fraction) {
    int64_t most = (1 << f.exponent) - 1;
    exponent = exponent < 0 ? 0 : exponent > most ? most : exponent;
    return (sign & 1) << (f.fraction + f.exponent) | (uint64_t)exponent << f.fraction | (fraction & (((uint64_t)1 << f.fraction) - 1));
}

/* A fraction of few bits at either end, a run of ones, a single bit, or any. */
static uint64_t fraction(format f) {
    uint64_t any = drawn() >> (64 - f.fraction), ones = ((uint64_t)1 << f.fraction) - 1, bit = (uint64_t)1 << below(f.fraction);
    switch (below(8)) {
    case 0: return 0;
    case 1: return ones;
    case 2: return any & -bit;
    case 3: return any & (bit - 1);
    case 4: return bit;
    case 5: return ones - bit;
    default: return any;
    }
}

typedef struct { uint64_t x, y; } pair;

static pair numbers(format f, int64_t first, int64_t second) {
    return (pair){bits_of(f, drawn(), first, fraction(f)), bits_of(f, drawn(), second, fraction(f))};
}

/* The second one is near the first one, so that most bits go. */
static pair neighbours(format f, int64_t exponent) {
    uint64_t first = fraction(f), difference = drawn() >> (64 - f.fraction) >> below(f.fraction);
    return (pair){bits_of(f, drawn(), exponent, first), bits_of(f, drawn(), exponent + (int64_t)below(3) - 1, first + difference)};
}

/* Odd numbers of half the bits, whose product lies in the middle between two numbers, or near. */
static pair halves(format f) {
    int half = (f.fraction + 2) / 2;
    pair p = numbers(f, (1 << (f.exponent - 1)), (1 << (f.exponent - 1)) - (int64_t)below(4));
    uint64_t bits = ((uint64_t)1 << (half - 1)) - 1, odd = (uint64_t)1 << (f.fraction - half + 1);
    uint64_t clear = bits << (f.fraction - half + 1), all = ((uint64_t)1 << f.fraction) - 1;
    return (pair){(p.x & ~all) | (p.x & clear) | odd, (p.y & ~all) | (p.y & clear) | odd};
}

static const uint64_t HARD[] = { /* as doubles; 32 bits of them serve as floats and words too */
    0, 1, 2, 3, 0x7ff, 0x800, 0xffff, 0x10000, 0x7fffff, 0x800000, 0x7fffffff, 0x80000000, 0xfffffffe, 0xffffffff, 0x100000000,
    0x000fffffffffffff, 0x0010000000000000, 0x0010000000000001, 0x001fffffffffffff, 0x0020000000000000, 0x3ca0000000000000,
    0x3fdfffffffffffff, 0x3fe0000000000000, 0x3fefffffffffffff, 0x3ff0000000000000, 0x3ff0000000000001, 0x3ff8000000000000,
    0x4000000000000000, 0x4008000000000000, 0x4010000000000000, 0x41dfffffffc00000, 0x41e0000000000000, 0x41efffffffe00000,
    0x41f0000000000000, 0x4330000000000000, 0x4330000000000001, 0x433fffffffffffff, 0x4340000000000000, 0x4340000000000001,
    0x43dfffffffffffff, 0x43e0000000000000, 0x43efffffffffffff, 0x43f0000000000000, 0x5fefffffffffffff, 0x7fdfffffffffffff,
    0x7fe0000000000000, 0x7fefffffffffffff, 0x7ff0000000000000, 0x7ff0000000000001, 0x7ff4000000000000, 0x7ff8000000000000,
    0x7ff8000000000001, 0x7fffffffffffffff, 0x36a0000000000000, 0x3690000000000000, 0x3690000000000001, 0x380fffffffffffff,
    0x3810000000000000, 0x47efffffe0000000, 0x47efffffefffffff, 0x47effffff0000000, 0x47f0000000000000,
};
static const uint32_t HARD_FLOATS[] = {
    0, 1, 2, 3, 0x7fffff, 0x800000, 0x800001, 0xffffff, 0x1000000, 0x33800000, 0x33800001, 0x3effffff, 0x3f000000, 0x3f7fffff, 0x3f800000,
    0x3f800001, 0x3fc00000, 0x40000000, 0x40400000, 0x4b000000, 0x4b000001, 0x4b7fffff, 0x4b800000, 0x4b800001, 0x4effffff, 0x4f000000,
    0x4f7fffff, 0x4f800000, 0x5effffff, 0x5f000000, 0x5f7fffff, 0x5f800000, 0x7effffff, 0x7f000000, 0x7f7fffff, 0x7f800000, 0x7f800001,
    0x7fa00000, 0x7fc00000, 0x7fc00001, 0x7fffffff,
};
enum { HARD_COUNT = sizeof HARD / sizeof *HARD, HARD_FLOAT_COUNT = sizeof HARD_FLOATS / sizeof *HARD_FLOATS };

static uint64_t hard(format f, uint64_t number) {
    uint64_t sign = (number & 1) << (f.fraction + f.exponent);
    number /= 2;
    return sign ^ (f.fraction == DOUBLE.fraction ? HARD[number % HARD_COUNT] : HARD_FLOATS[number % HARD_FLOAT_COUNT]);
}

static uint64_t hard_count(format f) { return 2 * (f.fraction == DOUBLE.fraction ? HARD_COUNT : HARD_FLOAT_COUNT); }

static uint64_t whole_number(format f) { /* a small one, of which halves and thirds are near */
    double number = (double)below(4001) - 2000;
    float small = (float)number;
    uint64_t bits = 0;
    if (f.fraction == DOUBLE.fraction) memcpy(&bits, &number, sizeof number);
    else memcpy(&bits, &small, sizeof small);
    return bits;
}

static pair numbers_drawn(format f) {
    int64_t bias = (1 << (f.exponent - 1)) - 1, any = 1 + (int64_t)below(2 * bias), near = (int64_t)below(9) - 4;
    switch (below(12)) {
    case 0: return (pair){drawn(), drawn()};
    case 1:
    case 2: return numbers(f, any, any + (int64_t)below(2 * f.fraction + 20) - f.fraction - 10);
    case 3: return neighbours(f, any);
    case 4: return numbers(f, any, bias + near - any);          /* products at the lower end */
    case 5: return numbers(f, any, 3 * bias + near - any);      /* and at the upper one */
    case 6: return numbers(f, any, any + (below(2) ? bias : -bias) + near); /* quotients there */
    case 7: return numbers(f, below(4), below(4));
    case 8: return numbers(f, 2 * bias + 1 - below(4), 2 * bias + 1 - below(4));
    case 9: return (pair){hard(f, drawn()), below(2) ? drawn() : hard(f, drawn())};
    case 10: return halves(f);
    default: return (pair){whole_number(f), whole_number(f)};
    }
}

/* Whole numbers of so many bits: of any length, at the ends of lengths, and of those that one divides the other nearly. */
static uint64_t whole_drawn(int bits) {
    uint64_t any = drawn() >> (64 - bits), one = (uint64_t)1 << below(bits);
    switch (below(6)) {
    case 0: return any;
    case 1: return one - below(3);
    case 2: return one + below(3);
    case 3: return -(any >> below(bits));
    default: return any >> below(bits);
    }
}

static pair wholes_drawn(int bits) {
    pair p = {whole_drawn(bits), whole_drawn(bits)};
    if (below(4) == 0) p.x = p.y * whole_drawn(bits) - below(3);
    return p;
}

/* Which operands a routine takes. */
typedef enum { DOUBLES, FLOATS, WIDES, WORDS, DOUBLE_TO_WHOLE, FLOAT_TO_WHOLE, DOUBLE_TO_FLOAT } operands;

static bool is_of_words(operands kind) { return kind == FLOATS || kind == WORDS || kind == FLOAT_TO_WHOLE; }

static pair pair_drawn(operands kind) {
    switch (kind) {
    case DOUBLES: return numbers_drawn(DOUBLE);
    case FLOATS: return numbers_drawn(FLOAT);
    case WIDES: return wholes_drawn(64);
    case WORDS: return wholes_drawn(32);
    case DOUBLE_TO_WHOLE: return below(8) ? numbers(DOUBLE, 1019 + below(72), 0) : numbers_drawn(DOUBLE);
    case FLOAT_TO_WHOLE: return below(8) ? numbers(FLOAT, 123 + below(72), 0) : numbers_drawn(FLOAT);
    default: return below(8) ? numbers(DOUBLE, 860 + below(300), 0) : numbers_drawn(DOUBLE);
    }
}

static uint64_t hard_pairs(operands kind) {
    uint64_t one = hard_count(is_of_words(kind) ? FLOAT : DOUBLE);
    return one * one;
}

/* Words and numbers of 64 bits get hard doubles' bits as well: ends of lengths are among them. */
static pair pair_of(operands kind, uint64_t number) {
    format f = is_of_words(kind) ? FLOAT : DOUBLE;
    if (number >= hard_pairs(kind)) return pair_drawn(kind);
    return (pair){hard(f, number % hard_count(f)), hard(f, number / hard_count(f))};
}

/* ---- what this machine says */

static double d(uint64_t bits) { double number; memcpy(&number, &bits, sizeof number); return number; }
static float s(uint64_t bits) { float number; uint32_t low = (uint32_t)bits; memcpy(&number, &low, sizeof number); return number; }

/* The bits of a result: a NaN is the one that the kit's page names. */
static uint64_t of_d(double number) {
    uint64_t bits;
    memcpy(&bits, &number, sizeof number);
    return number != number ? (uint64_t)0x7ff8 << 48 : bits;
}
static uint64_t of_s(float number) {
    uint32_t bits;
    memcpy(&bits, &number, sizeof number);
    return number != number ? 0x7fc00000 : bits;
}

/* Toward zero, the nearest number between these limits, and the upper one of a NaN. 2^63 and 2^64 are doubles. */
static uint64_t to_signed(double number, int bits) {
    double limit = ldexp(1, bits - 1);
    if (number != number || number >= limit) return ((uint64_t)1 << (bits - 1)) - 1;
    return number <= -limit ? -((uint64_t)1 << (bits - 1)) : (uint64_t)(int64_t)number;
}
static uint64_t to_unsigned(double number, int bits) {
    if (number != number || number >= ldexp(1, bits)) return UINT64_MAX >> (64 - bits);
    return number <= 0 ? 0 : (uint64_t)number;
}

/* The answer of a comparison: less, equal, greater, or what it is with a NaN. */
static uint64_t order(double x, double y, int unordered) {
    return (uint64_t)(x != x || y != y ? unordered : (x > y) - (x < y));
}

/* By zero as the page says; the least number by -1 is itself. */
static uint64_t quotient(int64_t x, int64_t y) { return y == 0 ? UINT64_MAX : y == -1 ? -(uint64_t)x : (uint64_t)(x / y); }
static uint64_t rest(int64_t x, int64_t y) { return y == 0 ? (uint64_t)x : y == -1 ? 0 : (uint64_t)(x % y); }

/* ---- routines */

/* Which part of the registers is the result. Of a comparison it is the sign, or whether it is 0. */
typedef enum { WIDE, WORD, SIGN, IS_ZERO } result;

typedef struct {
    const char *name;
    operands takes;
    result gives;
    uint64_t (*expected)(uint64_t x, uint64_t y);
    bool is_root;
} routine;

#define SAYS(name, value) \
    static uint64_t name(uint64_t x, uint64_t y) { (void)x, (void)y; return value; }
SAYS(sum, of_d(d(x) + d(y)))
SAYS(difference, of_d(d(x) - d(y)))
SAYS(product, of_d(d(x) * d(y)))
SAYS(ratio, of_d(d(x) / d(y)))
SAYS(negative, x ^ (uint64_t)1 << 63)
SAYS(root, of_d(sqrt(d(x))))
SAYS(order_less, order(d(x), d(y), 1))
SAYS(order_greater, order(d(x), d(y), -1))
SAYS(order_equal, order(d(x), d(y), 1))
SAYS(is_unordered, d(x) != d(x) || d(y) != d(y))
SAYS(sum_s, of_s(s(x) + s(y)))
SAYS(difference_s, of_s(s(x) - s(y)))
SAYS(product_s, of_s(s(x) * s(y)))
SAYS(ratio_s, of_s(s(x) / s(y)))
SAYS(negative_s, (x ^ 0x80000000) & 0xffffffff)
SAYS(root_s, of_s(sqrtf(s(x))))
SAYS(order_less_s, order(s(x), s(y), 1))
SAYS(order_greater_s, order(s(x), s(y), -1))
SAYS(order_equal_s, order(s(x), s(y), 1))
SAYS(is_unordered_s, s(x) != s(x) || s(y) != s(y))
SAYS(to_float, of_s((float)d(x)))
SAYS(to_double, of_d((double)s(x)))
SAYS(to_int, to_signed(d(x), 32))
SAYS(to_unsigned_int, to_unsigned(d(x), 32))
SAYS(to_long, to_signed(d(x), 64))
SAYS(to_unsigned_long, to_unsigned(d(x), 64))
SAYS(to_int_s, to_signed(s(x), 32))
SAYS(to_unsigned_int_s, to_unsigned(s(x), 32))
SAYS(to_long_s, to_signed(s(x), 64))
SAYS(to_unsigned_long_s, to_unsigned(s(x), 64))
SAYS(of_int, of_d((double)(int32_t)x))
SAYS(of_unsigned_int, of_d((double)(uint32_t)x))
SAYS(of_int_s, of_s((float)(int32_t)x))
SAYS(of_unsigned_int_s, of_s((float)(uint32_t)x))
SAYS(of_long, of_d((double)(int64_t)x))
SAYS(of_unsigned_long, of_d((double)x))
SAYS(of_long_s, of_s((float)(int64_t)x))
SAYS(of_unsigned_long_s, of_s((float)x))
SAYS(product_of_wholes, x * y)
SAYS(product_of_words, (x & 0xffffffff) * (y & 0xffffffff))
SAYS(quotient_of_words, quotient((int32_t)x, (int32_t)y))
SAYS(rest_of_words, rest((int32_t)x, (int32_t)y))
SAYS(quotient_of_unsigned_words, (uint32_t)y == 0 ? UINT32_MAX : (uint32_t)x / (uint32_t)y)
SAYS(rest_of_unsigned_words, (uint32_t)y == 0 ? (uint32_t)x : (uint32_t)x % (uint32_t)y)
SAYS(quotient_of_wides, quotient((int64_t)x, (int64_t)y))
SAYS(rest_of_wides, rest((int64_t)x, (int64_t)y))
SAYS(quotient_of_unsigned_wides, y == 0 ? UINT64_MAX : x / y)
SAYS(rest_of_unsigned_wides, y == 0 ? x : x % y)

static const routine ROUTINES[] = {
    {"__adddf3", DOUBLES, WIDE, sum},
    {"__subdf3", DOUBLES, WIDE, difference},
    {"__muldf3", DOUBLES, WIDE, product},
    {"__divdf3", DOUBLES, WIDE, ratio},
    {"__negdf2", DOUBLES, WIDE, negative},
    {"sqrt", DOUBLES, WIDE, root, true},
    {"__ledf2", DOUBLES, SIGN, order_less},
    {"__ltdf2", DOUBLES, SIGN, order_less},
    {"__gedf2", DOUBLES, SIGN, order_greater},
    {"__gtdf2", DOUBLES, SIGN, order_greater},
    {"__eqdf2", DOUBLES, IS_ZERO, order_equal},
    {"__nedf2", DOUBLES, IS_ZERO, order_equal},
    {"__unorddf2", DOUBLES, IS_ZERO, is_unordered},
    {"__fixdfsi", DOUBLE_TO_WHOLE, WORD, to_int},
    {"__fixunsdfsi", DOUBLE_TO_WHOLE, WORD, to_unsigned_int},
    {"__fixdfdi", DOUBLE_TO_WHOLE, WIDE, to_long},
    {"__fixunsdfdi", DOUBLE_TO_WHOLE, WIDE, to_unsigned_long},
    {"__truncdfsf2", DOUBLE_TO_FLOAT, WORD, to_float},
    {"__extendsfdf2", FLOATS, WIDE, to_double},
    {"__addsf3", FLOATS, WORD, sum_s},
    {"__subsf3", FLOATS, WORD, difference_s},
    {"__mulsf3", FLOATS, WORD, product_s},
    {"__divsf3", FLOATS, WORD, ratio_s},
    {"__negsf2", FLOATS, WORD, negative_s},
    {"sqrtf", FLOATS, WORD, root_s, true},
    {"__lesf2", FLOATS, SIGN, order_less_s},
    {"__ltsf2", FLOATS, SIGN, order_less_s},
    {"__gesf2", FLOATS, SIGN, order_greater_s},
    {"__gtsf2", FLOATS, SIGN, order_greater_s},
    {"__eqsf2", FLOATS, IS_ZERO, order_equal_s},
    {"__nesf2", FLOATS, IS_ZERO, order_equal_s},
    {"__unordsf2", FLOATS, IS_ZERO, is_unordered_s},
    {"__fixsfsi", FLOAT_TO_WHOLE, WORD, to_int_s},
    {"__fixunssfsi", FLOAT_TO_WHOLE, WORD, to_unsigned_int_s},
    {"__fixsfdi", FLOAT_TO_WHOLE, WIDE, to_long_s},
    {"__fixunssfdi", FLOAT_TO_WHOLE, WIDE, to_unsigned_long_s},
    {"__floatsidf", WORDS, WIDE, of_int},
    {"__floatunsidf", WORDS, WIDE, of_unsigned_int},
    {"__floatsisf", WORDS, WORD, of_int_s},
    {"__floatunsisf", WORDS, WORD, of_unsigned_int_s},
    {"__floatdidf", WIDES, WIDE, of_long},
    {"__floatundidf", WIDES, WIDE, of_unsigned_long},
    {"__floatdisf", WIDES, WORD, of_long_s},
    {"__floatundisf", WIDES, WORD, of_unsigned_long_s},
    {"__mulsi3", WORDS, WORD, product_of_wholes},
    {"__umulsidi3", WORDS, WIDE, product_of_words},
    {"__divsi3", WORDS, WORD, quotient_of_words},
    {"__modsi3", WORDS, WORD, rest_of_words},
    {"__udivsi3", WORDS, WORD, quotient_of_unsigned_words},
    {"__umodsi3", WORDS, WORD, rest_of_unsigned_words},
    {"__muldi3", WIDES, WIDE, product_of_wholes},
    {"__divdi3", WIDES, WIDE, quotient_of_wides},
    {"__moddi3", WIDES, WIDE, rest_of_wides},
    {"__udivdi3", WIDES, WIDE, quotient_of_unsigned_wides},
    {"__umoddi3", WIDES, WIDE, rest_of_unsigned_wides},
};

/* ---- runs */

static bool is_kept(int number) { return number == SP || number == 3 || number == TP || number == 8 || number == 9 || (number >= 18 && number <= 27); }

static void prepare(uint32_t *file, const routine *one, pair p) {
    for (int k = 1; k < REGISTERS; k++) file[k] = (uint32_t)drawn();
    file[RA] = RETURN, file[SP] = STACK, file[TP] = THREAD;
    file[A0] = (uint32_t)p.x;
    if (is_of_words(one->takes)) {
        file[A1] = (uint32_t)p.y;
        return;
    }
    file[A1] = (uint32_t)(p.x >> 32), file[A2] = (uint32_t)p.y, file[A3] = (uint32_t)(p.y >> 32);
}

static bool is_right(const routine *one, uint64_t expected, const uint32_t *file) {
    switch (one->gives) {
    case WIDE: return (file[A0] | (uint64_t)file[A1] << 32) == expected;
    case WORD: return file[A0] == (uint32_t)expected;
    case SIGN: return (int32_t)file[A0] < 0 ? (int64_t)expected < 0 : file[A0] > 0 ? (int64_t)expected > 0 : expected == 0;
    default: return (file[A0] == 0) == (expected == 0);
    }
}

/* A root of a number below zero sets errno, and nothing else does. */
static bool has_right_errno(const routine *one, pair p) {
    bool is_below = one->is_root && (one->takes == DOUBLES ? d(p.x) < 0 : s(p.x) < 0);
    return load(ERRNO) == (is_below ? EDOM : 0);
}

static bool holds(const routine *one, uint32_t address, pair p) {
    uint32_t before[REGISTERS] = {0}, file[REGISTERS];
    prepare(before, one, p);
    memcpy(file, before, sizeof file);
    store(ERRNO, 0);
    if (!run(file, address)) return false;
    for (int k = 0; k < REGISTERS; k++)
        if (is_kept(k) && file[k] != before[k]) return false;
    uint64_t expected = one->expected(p.x, p.y);
    if (is_right(one, expected, file) && has_right_errno(one, p)) return true;
    printf("%s %016llx %016llx: %08x%08x, and here %016llx\n", one->name, (unsigned long long)p.x, (unsigned long long)p.y, file[A1],
           file[A0], (unsigned long long)expected);
    return false;
}

/* How many pairs of a routine don't hold. Each routine has pairs of its own, whichever others run. */
static uint64_t wrong_pairs(const routine *one, uint32_t address, uint64_t count, uint64_t seed) {
    uint64_t wrong = 0;
    state = seed * 1000 + (uint64_t)(one - ROUTINES);
    for (uint64_t k = 0; k < count && wrong < MOST_TOLD; k++) wrong += !holds(one, address, pair_of(one->takes, k));
    if (wrong != 0) printf("%s is wrong\n", one->name);
    return wrong;
}

static const routine *named(const char *name) {
    for (size_t k = 0; k < sizeof ROUTINES / sizeof *ROUTINES; k++)
        if (strcmp(ROUTINES[k].name, name) == 0) return &ROUTINES[k];
    abort();
}

int main(int count, char **words) {
    uint64_t pairs = strtoull(words[1], NULL, 10), seed = strtoull(words[2], NULL, 10), all = 0;
    int wrong = 0, routines = sizeof places / sizeof *places;
    memcpy(memory + BEGIN, image, sizeof image);
    (void)count;
    for (int k = 0; k < routines; k++) {
        const routine *one = named(places[k].name);
        uint64_t of_this = hard_pairs(one->takes) + pairs;
        wrong += wrong_pairs(one, places[k].address, of_this, seed) != 0;
        all += of_this;
    }
    printf("arithmetic: %d routines by their own instructions as here, %llu pairs, seed %llu: %d wrong\n", routines, (unsigned long long)all,
           (unsigned long long)seed, wrong);
    return wrong != 0;
}
