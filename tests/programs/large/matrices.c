/*
 * Products of matrices of words on two threads, for as many rounds as ROUNDS says, which make some 15 million steps each. Behind each
 * round a thread takes a mutex and adds up what it has seen. It also counts its rounds in a word that both write without the mutex, and keeps
 * a block of the heap from one round to the next one. What is printed depends on each product, and not on the order of the threads.
 */
#include <pthread.h>
#include <stdint.h>
#include <stdio.h>
#include <stdlib.h>

#ifndef ROUNDS
#define ROUNDS 330
#endif

enum { THREADS = 2, SIZE = 48 };

static uint32_t left[THREADS][SIZE][SIZE], right[THREADS][SIZE][SIZE], product[THREADS][SIZE][SIZE];
static pthread_mutex_t mutex = PTHREAD_MUTEX_INITIALIZER;
static uint32_t sum;
static volatile uint32_t rounds;

static uint32_t next(uint32_t *state) {
    *state ^= *state << 13;
    *state ^= *state >> 17;
    return *state ^= *state << 5;
}

static void multiply(int me) {
    for (int row = 0; row < SIZE; row++) {
        for (int column = 0; column < SIZE; column++) {
            uint32_t dot = 0;
            for (int k = 0; k < SIZE; k++) dot += left[me][row][k] * right[me][k][column];
            product[me][row][column] = dot;
        }
    }
}

static void *work(void *number) {
    int me = *(int *)number;
    uint32_t draw = 2463534242u + me, seen = 0;
    uint32_t *kept = NULL;
    for (int round = 0; round < ROUNDS; round++) {
        for (int at = 0; at < SIZE * SIZE; at++) {
            left[me][at / SIZE][at % SIZE] = next(&draw) & 0xffff;
            right[me][at / SIZE][at % SIZE] = next(&draw) >> 8;
        }
        multiply(me);
        for (int at = 0; at < SIZE * SIZE; at++) seen = (seen << 5) - seen + product[me][at / SIZE][at % SIZE];
        uint32_t *block = malloc((1 + round % 7) * sizeof *block);
        *block = seen;
        if (kept != NULL) seen += *kept;
        free(kept);
        kept = block;
        rounds = rounds + 1;
        pthread_mutex_lock(&mutex);
        sum += seen;
        pthread_mutex_unlock(&mutex);
    }
    free(kept);
    return NULL;
}

int main(void) {
    pthread_t threads[THREADS];
    int numbers[THREADS];
    for (int me = 0; me < THREADS; me++) {
        numbers[me] = me;
        pthread_create(&threads[me], NULL, work, &numbers[me]);
    }
    for (int me = 0; me < THREADS; me++) pthread_join(threads[me], NULL);
    printf("%08lx\n", (unsigned long)sum);
    return 0;
}
