/* The exact decimal digits of a floating-point number: limbs of nine digits take up the bits of its mantissa, and are doubled or halved
   as often as its exponent says. */
#include "digits.h"
#include <float.h>
#include <string.h>

enum { LIMB_DIGITS = 9, LIMB = 1000000000, WORD_BITS = 32, MOST_DOUBLINGS = 29, MOST_HALVINGS = 9 };

static int least(int one, int other) { return one < other ? one : other; }
static int most(int one, int other) { return one > other ? one : other; }

/* --- The parts of a number ---------------------------------------------------------------------------------------- */

/* Of a number as IEEE 754 has it: above its fraction stand its exponent and its sign. */
static struct number parts_of(const uint32_t *words, int count, int fraction_bits, int exponent_bits) {
    int highest = (1 << exponent_bits) - 1;
    uint32_t top = words[count - 1], leading = UINT32_C(1) << fraction_bits % WORD_BITS, fraction = top & (leading - 1);
    int exponent = (int)(top >> fraction_bits % WORD_BITS) & highest;
    struct number number = {.is_negative = top >> (WORD_BITS - 1), .fraction_bits = fraction_bits};
    memcpy(number.mantissa, words, (size_t)count * sizeof *words);
    number.mantissa[count - 1] = fraction | (exponent ? leading : 0);
    number.exponent = most(exponent, 1) - highest / 2 - fraction_bits;
    for (int i = 0; i < count - 1; i++) fraction |= words[i];
    if (exponent == highest) number.kind = fraction ? NOT_A_NUMBER : INFINITE;
    return number;
}

struct number __guest_number_of(double value) {
    uint32_t words[sizeof value / sizeof(uint32_t)];
    memcpy(words, &value, sizeof value);
    return parts_of(words, sizeof words / sizeof *words, DBL_MANT_DIG - 1, 11);
}

struct number __guest_number_of_long(long double value) {
    uint32_t words[sizeof value / sizeof(uint32_t)];
    memcpy(words, &value, sizeof value);
    return parts_of(words, sizeof words / sizeof *words, LDBL_MANT_DIG - 1, 15);
}

uint32_t __guest_bits_of(const struct number *number, int low, int count) {
    int word = low / WORD_BITS;
    uint64_t bits = number->mantissa[word];
    if (word + 1 < MANTISSA_WORDS) bits |= (uint64_t)number->mantissa[word + 1] << WORD_BITS;
    return (uint32_t)(bits >> low % WORD_BITS) & ((UINT32_C(1) << count) - 1);
}

/* How many zeros the mantissa ends with behind the binary point: they make no digits. */
static int idle_bits(const struct number *number) {
    int bits = 0;
    while (bits < -number->exponent && bits <= number->fraction_bits && !__guest_bits_of(number, bits, 1)) bits++;
    return bits;
}

/* --- Limbs -------------------------------------------------------------------------------------------------------- */

/* And one before them, which rounding may carry to. 28/93 is a little above the logarithm of two. */
static int whole_limbs(const struct number *number) {
    int bits = number->fraction_bits + 1 + most(number->exponent, 0), digits = bits * 28 / 93 + 1;
    return 1 + (digits + LIMB_DIGITS - 1) / LIMB_DIGITS;
}

/* Each bit behind the binary point makes one more digit. */
static int behind_limbs(const struct number *number) {
    return (most(-number->exponent - idle_bits(number), 0) + LIMB_DIGITS - 1) / LIMB_DIGITS;
}

int __guest_limbs_for(const struct number *number) { return whole_limbs(number) + behind_limbs(number); }

/* The whole part times a power of two, plus what is below that power. */
static void multiply(struct digits *of, int power, uint32_t carry) {
    for (int i = of->end - 1; i >= of->first; i--) {
        uint64_t product = ((uint64_t)of->limbs[i] << power) + carry;
        carry = (uint32_t)(product / LIMB);
        of->limbs[i] = (uint32_t)(product - (uint64_t)carry * LIMB);
    }
    if (carry) of->limbs[--of->first] = carry;
}

/* Divides by a power of two, at most 2^9, by which a limb's unit can be divided: so the rest of one limb is a number in the next. */
static void divide(struct digits *of, int power) {
    uint32_t rest = 0, part = LIMB >> power, mask = (UINT32_C(1) << power) - 1;
    for (int i = of->first; i < of->end; i++) {
        uint32_t limb = of->limbs[i];
        of->limbs[i] = (limb >> power) + rest;
        rest = (limb & mask) * part;
    }
    if (rest) of->limbs[of->end++] = rest;
    while (of->first < of->end && !of->limbs[of->first]) of->first++;
}

struct digits __guest_digits_of(const struct number *number, uint32_t *limbs) {
    int point = whole_limbs(number), idle = idle_bits(number), bits = number->fraction_bits + 1;
    struct digits digits = {limbs, point, point, point};
    while (bits > idle) {
        int power = least(bits - idle, MOST_DOUBLINGS);
        bits -= power;
        multiply(&digits, power, __guest_bits_of(number, bits, power));
    }
    for (int left = number->exponent; left > 0; left -= MOST_DOUBLINGS) multiply(&digits, least(left, MOST_DOUBLINGS), 0);
    for (int left = -number->exponent - idle; left > 0; left -= MOST_HALVINGS) divide(&digits, least(left, MOST_HALVINGS));
    return digits;
}

/* --- Places ------------------------------------------------------------------------------------------------------- */

static const uint32_t powers[] = {1, 10, 100, 1000, 10000, 100000, 1000000, 10000000, 100000000};

static uint32_t limb_at(const struct digits *of, int index) {
    return index >= of->first && index < of->end ? of->limbs[index] : 0;
}

static int index_of(const struct digits *of, int place) {
    return place >= 0 ? of->point - 1 - place / LIMB_DIGITS : of->point - (place + 1) / LIMB_DIGITS;
}

/* What a digit at the place counts within its limb. */
static uint32_t unit_of(int place) {
    return powers[place >= 0 ? place % LIMB_DIGITS : LIMB_DIGITS - 1 + (place + 1) % LIMB_DIGITS];
}

int __guest_leading_place(const struct digits *of) {
    if (of->first == of->end) return 0;
    int digits = 1;
    while (digits < LIMB_DIGITS && of->limbs[of->first] >= powers[digits]) digits++;
    return (of->point - 1 - of->first) * LIMB_DIGITS + digits - 1;
}

int __guest_digit_at(const struct digits *of, int place) {
    return (int)(limb_at(of, index_of(of, place)) / unit_of(place) % 10);
}

/* Whether what lies below a unit of a limb is more than half of it (1), half of it (0), or less (-1). */
static int beside_half(const struct digits *of, int index, uint32_t unit) {
    bool is_whole = unit == 1; /* then it begins with the next limb */
    uint32_t part = is_whole ? limb_at(of, index + 1) : limb_at(of, index) % unit, half = (is_whole ? LIMB : unit) / 2;
    if (part != half) return part > half ? 1 : -1;
    for (int i = index + 1 + is_whole; i < of->end; i++) {
        if (of->limbs[i]) return 1;
    }
    return 0;
}

/* Takes a limb that rounding has filled back to zero, and adds one to that before it. */
static void carry_from(struct digits *of, int index) {
    while (of->limbs[index] == LIMB) {
        of->limbs[index--] = 0;
        if (index < of->first) of->limbs[of->first = index] = 0;
        of->limbs[index]++;
    }
    while (of->first < of->end && !of->limbs[of->first]) of->first++;
}

void __guest_round_at(struct digits *of, int place) {
    int index = index_of(of, place);
    uint32_t unit = unit_of(place), limb = limb_at(of, index);
    if (index >= of->end) return;
    if (index < of->first - 1) {
        of->end = of->first; /* far below half of the least number */
        return;
    }
    int half = beside_half(of, index, unit);
    limb -= limb % unit;
    if (half > 0 || (half == 0 && limb / unit % 2)) limb += unit;
    of->limbs[index] = limb;
    of->first = least(of->first, index);
    of->end = index + 1;
    carry_from(of, index);
}
