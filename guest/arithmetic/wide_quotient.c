/*
 * Quotients and rests of 64 bits, by divisions of words: each of these is one step for the machine.
 *
 * By zero a quotient has all bits, and the rest is the dividend. The least number by -1 is itself.
 */
#include "wide.h"
#include <stdbool.h>
#include <stddef.h>

/* A quotient, and in the upper word the rest: see word_quotient.S. */
wide divide_words(word dividend, word divisor) __asm__("__udivsi3");

typedef struct {
    wide quotient, rest;
} divided;

static int leading_zeros(word number) {
    int zeros = 0;
    for (int half = 16; half > 0; half /= 2) {
        if (number >> (32 - half) != 0) continue;
        zeros += half;
        number <<= half;
    }
    return zeros;
}

/* Half a word of a quotient: (rest * 2^16 + next) / divisor, where the rest is less than the divisor, whose top bit is set.
 * The quotient by the divisor's upper half is at most 2 too large. */
static word half_quotient(word *rest, word next, word divisor) {
    wide guess = divide_words(*rest, divisor >> 16);
    word quotient = lower(guess), product = quotient * (divisor & 0xffff), left = upper(guess) << 16 | next;
    for (int round = 0; round < 2 && left < product; round++) {
        quotient--;
        left += divisor;
        if (left < divisor) break; /* it has a bit more than a word holds */
    }
    *rest = left - product;
    return quotient;
}

/* joined(rest, low) / divisor, where the rest is less than the divisor, whose top bit is set. */
static word word_quotient(word *rest, word low, word divisor) {
    word first = half_quotient(rest, low >> 16, divisor);
    return first << 16 | half_quotient(rest, low & 0xffff, divisor);
}

/* By a divisor of at most 16 bits: by halves of words. */
static divided by_half(wide dividend, word divisor) {
    wide top = divide_words(upper(dividend), divisor);
    wide middle = divide_words(upper(top) << 16 | lower(dividend) >> 16, divisor);
    wide bottom = divide_words(upper(middle) << 16 | (lower(dividend) & 0xffff), divisor);
    return (divided){joined(lower(top), lower(middle) << 16 | lower(bottom)), upper(bottom)};
}

/* By a divisor of one word, of more than 16 bits. */
static divided by_word(wide dividend, word divisor) {
    wide top = divide_words(upper(dividend), divisor);
    int zeros = leading_zeros(divisor);
    wide shifted = joined(upper(top), lower(dividend)) << zeros; /* less than divisor << zeros, in its upper word */
    word rest = upper(shifted);
    word quotient = word_quotient(&rest, lower(shifted), divisor << zeros);
    return (divided){joined(lower(top), quotient), rest >> zeros};
}

/* By a divisor of two words, whose first word after shifting gives a quotient that is at most 1 too large. One less is
 * never too large, and at most 1 too small. */
static divided by_wide(wide dividend, wide divisor) {
    int zeros = leading_zeros(upper(divisor));
    wide half = dividend >> 1;
    word rest = upper(half);
    word quotient = word_quotient(&rest, lower(half), upper(divisor << zeros)) >> (31 - zeros);
    quotient -= quotient != 0;
    wide left = dividend - quotient * divisor;
    if (left < divisor) return (divided){quotient, left};
    return (divided){quotient + 1, left - divisor};
}

static divided divide(wide dividend, wide divisor) {
    if (upper(divisor) != 0) return by_wide(dividend, divisor);
    word low = lower(divisor);
    if (low == 0) return (divided){UINT64_MAX, dividend};
    if (upper(dividend) == 0) {
        wide both = divide_words(lower(dividend), low);
        return (divided){lower(both), upper(both)};
    }
    return low >> 16 == 0 ? by_half(dividend, low) : by_word(dividend, low);
}

static wide magnitude(int64_t number) {
    return number < 0 ? -(wide)number : (wide)number;
}

wide __udivdi3(wide dividend, wide divisor) {
    return divide(dividend, divisor).quotient;
}

wide __umoddi3(wide dividend, wide divisor) {
    return divide(dividend, divisor).rest;
}

wide __udivmoddi4(wide dividend, wide divisor, wide *rest) {
    divided both = divide(dividend, divisor);
    if (rest != NULL) *rest = both.rest;
    return both.quotient;
}

int64_t __divmoddi4(int64_t dividend, int64_t divisor, int64_t *rest) {
    divided both = divide(magnitude(dividend), magnitude(divisor));
    bool is_negative = (dividend < 0) != (divisor < 0) && divisor != 0;
    if (rest != NULL) *rest = (int64_t)(dividend < 0 ? -both.rest : both.rest);
    return (int64_t)(is_negative ? -both.quotient : both.quotient);
}

int64_t __divdi3(int64_t dividend, int64_t divisor) {
    return __divmoddi4(dividend, divisor, NULL);
}

int64_t __moddi3(int64_t dividend, int64_t divisor) {
    int64_t rest;
    __divmoddi4(dividend, divisor, &rest);
    return rest;
}
