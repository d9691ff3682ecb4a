/* The clock: sleeps end in the order of their moments, and deadlines come. */
#include <errno.h>
#include <pthread.h>
#include <stdint.h>
#include <stdio.h>
#include <time.h>

enum { THREADS = 4, STEP = 60400000 };

static pthread_mutex_t mutex = PTHREAD_MUTEX_INITIALIZER;
static pthread_cond_t never = PTHREAD_COND_INITIALIZER;
static struct timespec begin;

static struct timespec after(int steps) {
    struct timespec moment = {begin.tv_sec, begin.tv_nsec + (long)steps * STEP};
    moment.tv_sec += moment.tv_nsec / 1000000000;
    moment.tv_nsec %= 1000000000;
    return moment;
}

static int is_reached(struct timespec moment) {
    struct timespec now;
    clock_gettime(CLOCK_REALTIME, &now);
    return now.tv_sec > moment.tv_sec || (now.tv_sec == moment.tv_sec && now.tv_nsec >= moment.tv_nsec);
}

static void *sleeper(void *number) {
    struct timespec moment = after(1 + (int)(intptr_t)number);
    int error = clock_nanosleep(CLOCK_REALTIME, TIMER_ABSTIME, &moment, NULL);
    return (void *)(intptr_t)(error == 0 && is_reached(moment));
}

int main(void) {
    pthread_t threads[THREADS];
    clock_gettime(CLOCK_REALTIME, &begin);
    for (int i = 0; i < THREADS; i++) pthread_create(&threads[i], NULL, sleeper, (void *)(intptr_t)i);
    for (int i = 0; i < THREADS; i++) {
        void *is_good;
        pthread_join(threads[i], &is_good);
        printf("sleeper %d woke %s\n", i, is_good ? "in time" : "too early");
    }
    struct timespec deadline = after(THREADS + 1), short_time = {0, 1500000}, past = {0, 0};
    pthread_mutex_lock(&mutex);
    int error = pthread_cond_timedwait(&never, &mutex, &deadline);
    printf("the wait timed %s, and its deadline was %s\n", error == ETIMEDOUT ? "out" : "not",
           is_reached(deadline) ? "reached" : "not reached");
    pthread_mutex_unlock(&mutex);
    printf("a short sleep: %d\n", nanosleep(&short_time, NULL));
    printf("the begin of time: %d\n", clock_nanosleep(CLOCK_REALTIME, TIMER_ABSTIME, &past, NULL));
    short_time.tv_nsec = 1000000000;
    printf("no time: %s\n", nanosleep(&short_time, NULL) == -1 && errno == EINVAL ? "EINVAL" : "something else");
    return 0;
}
