/*
 * 200 MiB of doubles: four threads, each with a banded matrix of its own, fill it by a generator, and take it apart into L and U in its
 * place. Each row has a number below the diagonal and 14 above it. The diagonal outweighs the others, so no rows change places. What is
 * printed depends on each bit of L and U. ROWS is how many rows a matrix has.
 */
#include <pthread.h>
#include <stdint.h>
#include <stdio.h>
#include <stdlib.h>
#include <string.h>

#ifndef ROWS
#define ROWS 409600
#endif

enum { THREADS = 4, BELOW = 1, ABOVE = 14, WIDTH = BELOW + 1 + ABOVE };

typedef double row[WIDTH];  /* the number in column c of row r is at BELOW + c - r */

static row *matrices[THREADS];
static uint64_t digests[THREADS];
static double traces[THREADS];

static uint32_t next(uint32_t *state) {
    *state ^= *state << 13;
    *state ^= *state >> 17;
    return *state ^= *state << 5;
}

/* From 1 to 2 by an exponent of 0x3FF, or as many times more as that is greater. */
static double drawn(uint32_t *state, uint64_t exponent) {
    uint64_t high = next(state), bits = exponent << 52 | high << 20 | next(state) >> 12;
    double number;
    memcpy(&number, &bits, sizeof number);
    return number;
}

static void fill(row *matrix, uint32_t seed) {
    for (int r = 0; r < ROWS; r++) {
        for (int at = 0; at < WIDTH; at++) {
            int column = r + at - BELOW;
            matrix[r][at] = column < 0 || column >= ROWS ? 0 : drawn(&seed, at == BELOW ? 0x3FF + 8 : 0x3FF);
        }
    }
}

static void take_apart(row *matrix) {
    for (int r = 0; r + 1 < ROWS; r++) {
        double *below = matrix[r + 1], factor = below[0] / matrix[r][BELOW];
        below[0] = factor;
        for (int at = 1; at <= ABOVE; at++) below[at] -= factor * matrix[r][BELOW + at];
    }
}

static void *work(void *number) {
    int me = *(int *)number;
    row *matrix = matrices[me];
    fill(matrix, 2463534242u + me);
    take_apart(matrix);
    for (int r = 0; r < ROWS; r++) {
        uint64_t bits[WIDTH];
        memcpy(bits, matrix[r], sizeof bits);
        for (int at = 0; at < WIDTH; at++) digests[me] = (digests[me] << 7 | digests[me] >> 57) ^ bits[at];
        traces[me] += matrix[r][BELOW];
    }
    return NULL;
}

int main(void) {
    static int numbers[THREADS] = {0, 1, 2, 3};
    pthread_t threads[THREADS];
    for (int i = 0; i < THREADS; i++) {
        matrices[i] = malloc(ROWS * sizeof(row));
        if (!matrices[i]) {
            puts("no memory");
            return 1;
        }
    }
    for (int i = 0; i < THREADS; i++) {
        if (pthread_create(&threads[i], NULL, work, &numbers[i])) abort();
    }
    for (int i = 0; i < THREADS; i++) {
        pthread_join(threads[i], NULL);
        printf("matrix %d: %016llx, sum of the diagonal of U %.17g\n", i, (unsigned long long)digests[i], traces[i]);
        fflush(stdout);
        free(matrices[i]);
    }
    return 0;
}
