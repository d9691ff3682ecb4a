/* Four workers that meet at a barrier after each round, of which the last has four times the work of any other. */
#include <pthread.h>
#include <stdint.h>
#include <stdio.h>

enum { WORKERS = 4, ROUNDS = 5, STEPS = 100 };

static pthread_barrier_t barrier;
static volatile uint32_t sums[WORKERS];

static uint32_t mixed(uint32_t value, int steps) {
    for (int step = 0; step < steps; step++) value = value * 5 + (value >> 7);
    return value;
}

static void *work(void *number) {
    int worker = (int)(intptr_t)number;
    for (int round = 0; round < ROUNDS; round++) {
        sums[worker] += mixed(round, worker == WORKERS - 1 ? 4 * STEPS : STEPS);
        pthread_barrier_wait(&barrier);
    }
    return NULL;
}

int main(void) {
    pthread_t workers[WORKERS];
    pthread_barrier_init(&barrier, NULL, WORKERS);
    for (int worker = 0; worker < WORKERS; worker++) pthread_create(&workers[worker], NULL, work, (void *)(intptr_t)worker);
    for (int worker = 0; worker < WORKERS; worker++) pthread_join(workers[worker], NULL);
    printf("%lu\n", (unsigned long)(sums[0] + sums[1] + sums[2] + sums[3]));
    return 0;
}
