/* Doubles: for each point of a square, in how many rounds z * z + c leaves a circle, and where it is then. */
#include "bare.h"

#ifndef ROUNDS
#define ROUNDS 1
#endif
#define SIDE 200
#define MOST 50

static uint32_t rounds_of_all;
static double places;

static void follow(double real, double imaginary)
{
    double x = 0, y = 0;
    int round = 0;
    while (round < MOST && x * x + y * y <= 4.0) {
        double next = x * x - y * y + real;
        y = 2.0 * x * y + imaginary;
        x = next;
        round++;
    }
    rounds_of_all += (uint32_t)round;
    places += x - y;
}

int start(void)
{
    for (int round = 0; round < ROUNDS; round++)
        for (int row = 0; row < SIDE; row++)
            for (int column = 0; column < SIDE; column++)
                follow(-2.0 + column * (2.5 / SIDE), -1.25 + row * (2.5 / SIDE));
    put_number(rounds_of_all);
    put_double(places);
    return 0;
}
