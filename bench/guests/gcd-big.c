/* Greatest common divisors of pairs of words, by Euclid's algorithm: how many pairs have none but 1, and the sum of the others. */
#include "bare.h"

#define PAIRS 312000

static uint32_t gcd(uint32_t a, uint32_t b)
{
    while (b != 0) {
        uint32_t rest = a % b;
        a = b;
        b = rest;
    }
    return a;
}

int start(void)
{
    uint32_t draw = 88172645u, coprime = 0, sum = 0;
    for (int pair = 0; pair < PAIRS; pair++) {
        draw ^= draw << 13;
        draw ^= draw >> 17;
        draw ^= draw << 5;
        uint32_t divisor = gcd(draw, (draw >> 9) + 2 * pair + 2);
        if (divisor == 1)
            coprime++;
        else
            sum += divisor;
    }
    put_number(coprime);
    put_number(sum);
    return 0;
}
