/* The exact decimal digits of a floating-point number. */
#ifndef GUEST_DIGITS_H
#define GUEST_DIGITS_H

#include <stdbool.h>
#include <stdint.h>

enum kind { FINITE, INFINITE, NOT_A_NUMBER };
enum { MANTISSA_WORDS = 4 };

/* A finite number is its mantissa times two to the exponent. */
struct number {
    enum kind kind;
    bool is_negative;
    uint32_t mantissa[MANTISSA_WORDS]; /* the lowest word first */
    int fraction_bits;                 /* of the mantissa, below its leading bit */
    int exponent;
};

struct number __guest_number_of(double value);
struct number __guest_number_of_long(long double value);

/* So many bits of the mantissa, 29 at most, from one on. */
uint32_t __guest_bits_of(const struct number *number, int low, int count);

/* Limbs of nine digits, the most significant one first: those before `point` are the whole part. From `first` on and before `end`
   stand all that aren't zero. */
struct digits {
    uint32_t *limbs;
    int first, end, point;
};

/* How many limbs it takes to write a number, and to round it. */
int __guest_limbs_for(const struct number *number);

struct digits __guest_digits_of(const struct number *number, uint32_t *limbs);

/* A place is the power of ten that a digit counts. No number has a digit below the least, which the least long double has. */
enum { LEAST_PLACE = -16494 };

/* The place of the leading digit; 0 of the number 0. */
int __guest_leading_place(const struct digits *of);
int __guest_digit_at(const struct digits *of, int place);

/* Rounds to the nearest number without digits below a place; of two that are as near, to the one with an even digit there. */
void __guest_round_at(struct digits *of, int place);

#endif
