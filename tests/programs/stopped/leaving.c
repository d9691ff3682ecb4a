// A thread ends the process once another one has counted far enough, and a third one waits for both.
#include <pthread.h>
#include <stdlib.h>

static volatile int count;

static void *counts(void *unused) {
    for (;;) count++;
    return unused;
}

static void *leaves(void *unused) {
    while (count < 1000) continue;
    exit(3);
    return unused;
}

int main(void) {
    pthread_t first, second;
    pthread_create(&first, NULL, leaves, NULL);
    pthread_create(&second, NULL, counts, NULL);
    pthread_join(second, NULL);
}
