/* A bounded buffer: producers put numbers in, consumers take them out, and who can't go on waits at a condition. */
#include <pthread.h>
#include <stdint.h>
#include <stdio.h>

enum { ROOM = 4, PRODUCERS = 3, CONSUMERS = 2, NUMBERS = 40, END = 0 };

static pthread_mutex_t mutex = PTHREAD_MUTEX_INITIALIZER;
static pthread_cond_t not_full = PTHREAD_COND_INITIALIZER, not_empty = PTHREAD_COND_INITIALIZER;
static int buffer[ROOM], oldest, count, most;

static void put(int number) {
    pthread_mutex_lock(&mutex);
    while (count == ROOM) pthread_cond_wait(&not_full, &mutex);
    buffer[(oldest + count) % ROOM] = number;
    count++;
    if (count > most) most = count;
    pthread_cond_signal(&not_empty);
    pthread_mutex_unlock(&mutex);
}

static int take(void) {
    pthread_mutex_lock(&mutex);
    while (count == 0) pthread_cond_wait(&not_empty, &mutex);
    int number = buffer[oldest];
    oldest = (oldest + 1) % ROOM;
    count--;
    pthread_cond_signal(&not_full);
    pthread_mutex_unlock(&mutex);
    return number;
}

/* Puts the numbers from 1 to NUMBERS that leave its remainder. */
static void *producer(void *remainder) {
    for (int number = 1; number <= NUMBERS; number++) {
        if (number % PRODUCERS == (int)(intptr_t)remainder) put(number);
    }
    return NULL;
}

static void *consumer(void *sum) {
    for (int number = take(); number != END; number = take()) *(int *)sum += number;
    return NULL;
}

int main(void) {
    pthread_t producers[PRODUCERS], consumers[CONSUMERS];
    int sums[CONSUMERS] = {0}, total = 0;
    for (int i = 0; i < CONSUMERS; i++) pthread_create(&consumers[i], NULL, consumer, &sums[i]);
    for (int i = 0; i < PRODUCERS; i++) pthread_create(&producers[i], NULL, producer, (void *)(intptr_t)i);
    for (int i = 0; i < PRODUCERS; i++) pthread_join(producers[i], NULL);
    for (int i = 0; i < CONSUMERS; i++) put(END);
    for (int i = 0; i < CONSUMERS; i++) {
        pthread_join(consumers[i], NULL);
        total += sums[i];
    }
    printf("the numbers 1 to %d add up to %d\n", NUMBERS, total);
    printf("the buffer %s its room\n", most <= ROOM ? "kept within" : "outgrew");
    return 0;
}
