/* 64 threads at once, with all the stack that the usual ones have at least, and one with more. */
#include <pthread.h>
#include <stdint.h>
#include <stdio.h>
#include <string.h>

enum { THREADS = 63, DEPTH = 60 };

static pthread_barrier_t barrier;

/* Some 6,000 bytes of stack in all. */
static __attribute__((noinline)) int deep(int depth) {
    volatile char frame[64];
    frame[depth % 64] = (char)depth;
    return depth == 0 ? 0 : deep(depth - 1) + frame[depth % 64];
}

static void *work(void *number) {
    pthread_barrier_wait(&barrier);
    return (void *)(intptr_t)(deep(DEPTH) + (int)(intptr_t)number);
}

static void *large(void *unused) {
    volatile char frame[100000];
    (void)unused;
    memset((char *)frame, 1, sizeof frame);
    return (void *)(intptr_t)frame[99999];
}

int main(void) {
    pthread_t threads[THREADS], one;
    pthread_attr_t attributes;
    intptr_t sum = 0;
    void *value;
    pthread_barrier_init(&barrier, NULL, THREADS + 1);
    for (int i = 0; i < THREADS; i++) {
        if (pthread_create(&threads[i], NULL, work, (void *)(intptr_t)i) != 0) puts("no room");
    }
    pthread_barrier_wait(&barrier);
    for (int i = 0; i < THREADS; i++) {
        pthread_join(threads[i], &value);
        sum += (intptr_t)value;
    }
    printf("together %d\n", (int)sum);
    pthread_attr_init(&attributes);
    pthread_attr_setstacksize(&attributes, 131072);
    pthread_create(&one, &attributes, large, NULL);
    pthread_join(one, &value);
    printf("the large one: %d\n", (int)(intptr_t)value);
    return 0;
}
