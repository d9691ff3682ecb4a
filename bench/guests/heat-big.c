/* Doubles: heat in a rod of 64 cells by an implicit scheme, whose equations are solved by elimination. */
#include "bare.h"

#ifndef ROUNDS
#define ROUNDS 3400
#endif
#define CELLS 64

static double heat[CELLS], share[CELLS], right[CELLS];

/* A moment later: (1 + 2 r) x[i] - r x[i - 1] - r x[i + 1] = heat[i], with ends that stay at 0. */
static void step(double r)
{
    double diagonal = 1 + 2 * r;
    share[0] = r / diagonal;
    right[0] = heat[0] / diagonal;
    for (int i = 1; i < CELLS; i++) {
        double pivot = diagonal - r * share[i - 1];
        share[i] = r / pivot;
        right[i] = (heat[i] + r * right[i - 1]) / pivot;
    }
    heat[CELLS - 1] = right[CELLS - 1];
    for (int i = CELLS - 2; i >= 0; i--)
        heat[i] = right[i] + share[i] * heat[i + 1];
}

int start(void)
{
    double sum = 0;
    for (int i = 0; i < CELLS; i++)
        heat[i] = i < CELLS / 2 ? 100.0 : 0.5 * i;
    for (int round = 0; round < ROUNDS; round++)
        step(0.25 / (1 + round % 16));
    for (int i = 0; i < CELLS; i++)
        sum += heat[i];
    put_double(sum);
    return 0;
}
