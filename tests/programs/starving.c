/* Four writers that compute while they hold a read-write lock, and come back for it at once; and a reader of a single number, which waits
   for all of them before each read. */
#include <pthread.h>
#include <stdint.h>
#include <stdio.h>

enum { WRITERS = 4, ROUNDS = 6 };

static pthread_rwlock_t lock = PTHREAD_RWLOCK_INITIALIZER;
static volatile uint32_t value;

static uint32_t mixed(uint32_t value, int steps) {
    for (int step = 0; step < steps; step++) value = value * 5 + (value >> 7);
    return value;
}

static void *write_often(void *number) {
    for (int round = 0; round < ROUNDS; round++) {
        pthread_rwlock_wrlock(&lock);
        value += mixed((uint32_t)(intptr_t)number + round, 100);
        pthread_rwlock_unlock(&lock);
    }
    return NULL;
}

static void *read_often(void *unused) {
    (void)unused;
    uint32_t sum = 0;
    for (int round = 0; round < ROUNDS; round++) {
        pthread_rwlock_rdlock(&lock);
        sum += value;
        pthread_rwlock_unlock(&lock);
    }
    return (void *)(intptr_t)sum;
}

int main(void) {
    pthread_t writers[WRITERS], reader;
    for (int writer = 0; writer < WRITERS; writer++) pthread_create(&writers[writer], NULL, write_often, (void *)(intptr_t)writer);
    pthread_create(&reader, NULL, read_often, NULL);
    for (int writer = 0; writer < WRITERS; writer++) pthread_join(writers[writer], NULL);
    pthread_join(reader, NULL);
    printf("%lu\n", (unsigned long)value);
    return 0;
}
