/* Three planted data races between the threads `first` and `second` right behind a barrier, each to bytes of a word whose other bytes are stored
   right behind: on every schedule, each once. */
#include <pthread.h>
#include <stdio.h>

static pthread_barrier_t barrier;

static struct {
    volatile char one, two, three; /* each is stored by one thread alone: no race */
    volatile char both;            /* two store it */
} fields __attribute__((aligned(4)));

static volatile union {
    int whole;
    short halves[2];
    char bytes[4];
} cleared, halved;

static void *first(void *unused) {
    (void)unused;
    pthread_barrier_wait(&barrier);
    fields.both = 1;
    fields.one = 1;
    cleared.whole = 0;
    cleared.bytes[0] = 1; /* bytes 1 to 3 have the store of the whole still */
    halved.halves[1] = 1;
    halved.bytes[2] = 1; /* and byte 3 that of its half */
    return NULL;
}

static void *second(void *result) {
    int *seen = result;
    pthread_barrier_wait(&barrier);
    fields.both = 2;
    fields.two = 2;
    cleared.bytes[2] = 2;
    *seen = halved.bytes[3];
    return NULL;
}

static void *third(void *unused) {
    (void)unused;
    pthread_barrier_wait(&barrier);
    fields.three = 3;
    halved.halves[0] = 3;
    return NULL;
}

int main(void) {
    pthread_t threads[3];
    int seen = 0;
    pthread_barrier_init(&barrier, NULL, 3);
    pthread_create(&threads[0], NULL, first, NULL);
    pthread_create(&threads[1], NULL, second, &seen);
    pthread_create(&threads[2], NULL, third, NULL);
    for (int thread = 0; thread < 3; thread++) pthread_join(threads[thread], NULL);
    printf("%d\n", fields.one + fields.two + fields.three);
    return seen;
}
