/* Three threads meet twice at a barrier that is for two: where the same two meet twice, the third waits alone. */
#include <pthread.h>

enum { THREADS = 3 };

static pthread_barrier_t barrier;

static void *meet(void *unused) {
    pthread_barrier_wait(&barrier);
    pthread_barrier_wait(&barrier);
    return unused;
}

int main(void) {
    pthread_t threads[THREADS];
    pthread_barrier_init(&barrier, NULL, THREADS - 1);
    for (int i = 0; i < THREADS; i++) pthread_create(&threads[i], NULL, meet, NULL);
    for (int i = 0; i < THREADS; i++) pthread_join(threads[i], NULL);
    return 0;
}
