/* A planted data race between two threads right behind a barrier: each stores under a lock of its own, and the locks stand at addresses of
   one word. The runtime has a lock by its address alone; no C library has such ones. */
#include <pthread.h>
#include <stdio.h>

static pthread_barrier_t barrier;
static pthread_mutex_t locks;
static volatile int shared;

/* The lock that stands so many bytes behind the first. */
static pthread_mutex_t *lock_at(int byte) { return (pthread_mutex_t *)((char *)&locks + byte); }

static void *first(void *unused) {
    (void)unused;
    pthread_barrier_wait(&barrier);
    pthread_mutex_lock(lock_at(0));
    shared = 1;
    pthread_mutex_unlock(lock_at(0));
    return NULL;
}

static void *second(void *unused) {
    (void)unused;
    pthread_barrier_wait(&barrier);
    pthread_mutex_lock(lock_at(1));
    shared = 2;
    pthread_mutex_unlock(lock_at(1));
    return NULL;
}

int main(void) {
    pthread_t threads[2];
    pthread_barrier_init(&barrier, NULL, 2);
    pthread_create(&threads[0], NULL, first, NULL);
    pthread_create(&threads[1], NULL, second, NULL);
    pthread_join(threads[0], NULL);
    pthread_join(threads[1], NULL);
    printf("%d\n", shared > 0);
    return 0;
}
