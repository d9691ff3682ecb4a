/* Doubles: five bodies that attract each other, by the method of leaps, with a root and a quotient for each pair. */
#include "bare.h"

#ifndef ROUNDS
#define ROUNDS 20000
#endif
#define BODIES 5
#define STEP 0.001

typedef struct {
    double x, y, z, vx, vy, vz, mass;
} body;

/* A heavy one that rests at first, and four that go around it. */
static body bodies[BODIES] = {
    {0, 0, 0, 0, 0, 0, 1},
    {1, 0, 0.02, 0, 1, 0.01, 0.001},
    {-1.6, 0.1, 0, -0.05, -0.78, 0.02, 0.0004},
    {0.2, 2.5, -0.1, -0.62, 0.03, 0, 0.002},
    {-0.3, -4, 0.3, 0.49, -0.04, 0.01, 0.0007},
};

static void pull(body *a, body *b)
{
    double x = a->x - b->x, y = a->y - b->y, z = a->z - b->z;
    double square = x * x + y * y + z * z;
    double share = STEP / (square * sqrt(square));
    double to_a = b->mass * share, to_b = a->mass * share;
    a->vx -= x * to_a;
    a->vy -= y * to_a;
    a->vz -= z * to_a;
    b->vx += x * to_b;
    b->vy += y * to_b;
    b->vz += z * to_b;
}

static void move(body *a)
{
    a->x += STEP * a->vx;
    a->y += STEP * a->vy;
    a->z += STEP * a->vz;
}

static double energy(void)
{
    double sum = 0;
    for (int i = 0; i < BODIES; i++) {
        body *a = &bodies[i];
        sum += 0.5 * a->mass * (a->vx * a->vx + a->vy * a->vy + a->vz * a->vz);
        for (int j = i + 1; j < BODIES; j++) {
            body *b = &bodies[j];
            double x = a->x - b->x, y = a->y - b->y, z = a->z - b->z;
            sum -= a->mass * b->mass / sqrt(x * x + y * y + z * z);
        }
    }
    return sum;
}

int start(void)
{
    put_double(energy());
    for (int round = 0; round < ROUNDS; round++) {
        for (int i = 0; i < BODIES; i++)
            for (int j = i + 1; j < BODIES; j++)
                pull(&bodies[i], &bodies[j]);
        for (int i = 0; i < BODIES; i++)
            move(&bodies[i]);
    }
    put_double(energy());
    return 0;
}
