/* The ends of threads: by return, by pthread_exit and by cancellation, joined and detached; and the process's own. */
#include <pthread.h>
#include <stdint.h>
#include <stdio.h>
#include <stdlib.h>
#include <time.h>

enum { ROUNDS = 50, AT_ONCE = 8, JOINED = 200 };

static pthread_barrier_t barrier;
static pthread_mutex_t mutex = PTHREAD_MUTEX_INITIALIZER;
static pthread_cond_t changed = PTHREAD_COND_INITIALIZER;
static int ended;

static void count(void *unused) {
    (void)unused;
    pthread_mutex_lock(&mutex);
    ended++;
    pthread_cond_signal(&changed);
    pthread_mutex_unlock(&mutex);
}

/* Ends in one of three ways, together with others. */
static void *detached(void *way) {
    pthread_cleanup_push(count, NULL);
    pthread_barrier_wait(&barrier);
    switch ((int)(intptr_t)way % 3) {
    case 0: pthread_exit(NULL);
    case 1: pthread_cancel(pthread_self()), pthread_testcancel();
    }
    pthread_cleanup_pop(1);
    return NULL;
}

static void *joined(void *value) {
    if ((intptr_t)value % 2) pthread_exit(value);
    return value;
}

static void create(pthread_t *id, const pthread_attr_t *attributes, void *(*start)(void *), int argument) {
    if (pthread_create(id, attributes, start, (void *)(intptr_t)argument) != 0) puts("no room");
}

/* Half of the threads begin detached; the others are detached by this one, some of them surely after their end. */
static void round_of_detached(const pthread_attr_t *attributes, int round) {
    const struct timespec short_time = {0, 1000000};
    pthread_t ids[AT_ONCE];
    for (int i = 0; i < AT_ONCE; i++) create(&ids[i], i % 2 ? attributes : NULL, detached, i);
    pthread_mutex_lock(&mutex);
    while (round % 2 && ended < (round + 1) * AT_ONCE) pthread_cond_wait(&changed, &mutex);
    pthread_mutex_unlock(&mutex);
    if (round % 2) nanosleep(&short_time, NULL);
    for (int i = 0; i < AT_ONCE; i += 2) {
        if (pthread_detach(ids[i]) != 0) puts("not detached");
    }
    pthread_mutex_lock(&mutex);
    while (ended < (round + 1) * AT_ONCE) pthread_cond_wait(&changed, &mutex);
    pthread_mutex_unlock(&mutex);
}

/* The memory of all these threads together is many times the guest's: each one's has to be free for later ones. */
static void many_detached(void) {
    pthread_attr_t attributes;
    pthread_attr_init(&attributes);
    pthread_attr_setdetachstate(&attributes, PTHREAD_CREATE_DETACHED);
    pthread_barrier_init(&barrier, NULL, AT_ONCE);
    for (int round = 0; round < ROUNDS; round++) round_of_detached(&attributes, round);
    pthread_attr_destroy(&attributes);
    printf("%d detached threads have ended\n", ended);
}

static void many_joined(void) {
    intptr_t sum = 0;
    for (int i = 0; i < JOINED; i++) {
        pthread_t id;
        void *value;
        create(&id, NULL, joined, i);
        if (pthread_join(id, &value) != 0) puts("not joined");
        sum += (intptr_t)value;
    }
    printf("%d joined threads gave together %d\n", JOINED, (int)sum);
}

static pthread_t first;

/* Outlives the first thread, joins it, and ends as the last thread of the process. */
static void *last(void *unused) {
    void *value;
    (void)unused;
    int error = pthread_join(first, &value);
    printf("the first thread joined: %d, %s\n", error, (const char *)value);
    return NULL;
}

static void at_exit(void) { puts("exit routines run"); }

int main(void) {
    pthread_t id;
    many_detached();
    many_joined();
    atexit(at_exit);
    first = pthread_self();
    pthread_create(&id, NULL, last, NULL);
    pthread_detach(id);
    pthread_exit("its value");
}
