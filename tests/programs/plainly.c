/*
 * Plain accesses beside atomic ones of the same word, between two threads right behind a barrier: four data races on every schedule, by C11
 * (5.1.2.4), whatever is printed.
 */
#include <pthread.h>
#include <stdint.h>
#include <stdio.h>

static pthread_barrier_t barrier;
static pthread_mutex_t mutex = PTHREAD_MUTEX_INITIALIZER;

static volatile int stop;    /* one stores it atomically, the other looks at it plainly until it is set */
static volatile int is_made; /* looked at plainly before the mutex is taken, stored atomically under it */
static volatile int tally;   /* one adds to it atomically, which loads and stores; the other stores it plainly */
static int made;             /* under the mutex: no race */

/* A lock that is checked twice, the first time by a plain look. */
static void make_once(void) {
    if (is_made) return;
    pthread_mutex_lock(&mutex);
    if (!is_made) {
        made++;
        __atomic_store_n(&is_made, 1, __ATOMIC_RELEASE);
    }
    pthread_mutex_unlock(&mutex);
}

static void first_way(void) {
    while (!stop) continue;
    __atomic_fetch_add(&tally, 1, __ATOMIC_RELAXED);
}

static void second_way(void) {
    __atomic_store_n(&stop, 1, __ATOMIC_RELEASE);
    tally = 5;
}

static void *work(void *number) {
    pthread_barrier_wait(&barrier);
    make_once();
    pthread_barrier_wait(&barrier);
    if ((intptr_t)number == 0) first_way();
    else second_way();
    return NULL;
}

int main(void) {
    pthread_t threads[2];
    pthread_barrier_init(&barrier, NULL, 2);
    for (intptr_t i = 0; i < 2; i++) pthread_create(&threads[i], NULL, work, (void *)i);
    for (int i = 0; i < 2; i++) pthread_join(threads[i], NULL);
    printf("%d\n", made);
    return 0;
}
