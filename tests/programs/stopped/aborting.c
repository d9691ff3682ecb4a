// A thread aborts once another one has counted far enough, and a third one waits for both.
#include <pthread.h>
#include <stdlib.h>

static volatile int count;

static void *counts(void *unused) {
    for (;;) count++;
    return unused;
}

static void *gives_up(void *unused) {
    while (count < 1000) continue;
    abort();
    return unused;
}

int main(void) {
    pthread_t first, second;
    pthread_create(&first, NULL, gives_up, NULL);
    pthread_create(&second, NULL, counts, NULL);
    pthread_join(second, NULL);
}
