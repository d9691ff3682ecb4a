/* Four workers, and one mutex around nearly all that they do: at any moment one of them works, and three wait. */
#include <pthread.h>
#include <stdint.h>
#include <stdio.h>

enum { WORKERS = 4, ROUNDS = 6 };

static pthread_mutex_t mutex = PTHREAD_MUTEX_INITIALIZER;
static volatile uint32_t sums[WORKERS];

static uint32_t mixed(uint32_t value, int steps) {
    for (int step = 0; step < steps; step++) value = value * 5 + (value >> 7);
    return value;
}

static void *work(void *number) {
    int worker = (int)(intptr_t)number;
    for (int round = 0; round < ROUNDS; round++) {
        sums[worker] += mixed(round, 20);
        pthread_mutex_lock(&mutex);
        sums[worker] += mixed(round, 200);
        pthread_mutex_unlock(&mutex);
    }
    return NULL;
}

int main(void) {
    pthread_t workers[WORKERS];
    for (int worker = 0; worker < WORKERS; worker++) pthread_create(&workers[worker], NULL, work, (void *)(intptr_t)worker);
    for (int worker = 0; worker < WORKERS; worker++) pthread_join(workers[worker], NULL);
    printf("%lu\n", (unsigned long)(sums[0] + sums[1] + sums[2] + sums[3]));
    return 0;
}
