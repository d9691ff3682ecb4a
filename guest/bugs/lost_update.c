/* Two threads count up one number with no lock: an update between the other's load and store is lost. */
#include <pthread.h>
#include <stdio.h>

enum { ROUNDS = 50 };

static volatile int count;

static void *counter(void *unused) {
    for (int round = 0; round < ROUNDS; round++) count = count + 1;
    return unused;
}

int main(void) {
    pthread_t other;
    pthread_create(&other, NULL, counter, NULL);
    counter(NULL);
    pthread_join(other, NULL);
    printf("%d\n", count);
    return count != 2 * ROUNDS;
}
