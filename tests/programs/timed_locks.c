/* Read-write locks by a deadline: who waits with one isn't passed, and who waited behind it goes on when the deadline has come. */
#define _GNU_SOURCE
#include <errno.h>
#include <pthread.h>
#include <sched.h>
#include <stdatomic.h>
#include <stdio.h>
#include <time.h>

enum { READERS = 3, ROUNDS = 8 };

static pthread_rwlock_t lock, again = PTHREAD_RWLOCK_INITIALIZER;
static pthread_mutex_t mutex = PTHREAD_MUTEX_INITIALIZER;
static atomic_int has_ended;
static int had, timed_out, sum;

static const char *name_of(int error) {
    switch (error) {
    case 0: return "0";
    case EBUSY: return "EBUSY";
    case EINVAL: return "EINVAL";
    case ETIMEDOUT: return "ETIMEDOUT";
    default: return "another";
    }
}

static void say(const char *what, int error) { printf("%-24s %s\n", what, name_of(error)); }

static void count(int *of) {
    pthread_mutex_lock(&mutex);
    ++*of;
    pthread_mutex_unlock(&mutex);
}

static struct timespec in(int milliseconds) {
    struct timespec time;
    clock_gettime(CLOCK_REALTIME, &time);
    time.tv_sec += milliseconds / 1000;
    time.tv_nsec += milliseconds % 1000 * 1000000L;
    if (time.tv_nsec >= 1000000000) time.tv_sec++, time.tv_nsec -= 1000000000;
    return time;
}

/* Linux lets readers pass a writer unless it is told otherwise; here that changes nothing. */
static void make_lock(void) {
    pthread_rwlockattr_t attributes;
    pthread_rwlockattr_init(&attributes);
    pthread_rwlockattr_setkind_np(&attributes, PTHREAD_RWLOCK_PREFER_WRITER_NONRECURSIVE_NP);
    say("init", pthread_rwlock_init(&lock, &attributes));
}

/* Reads again and again until a writer waits, and then waits behind it. */
static void *reader(void *unused) {
    while (!has_ended && pthread_rwlock_tryrdlock(&lock) == 0) {
        sched_yield();
        pthread_rwlock_unlock(&lock);
    }
    pthread_rwlock_rdlock(&lock);
    count(&had);
    pthread_rwlock_unlock(&lock);
    return unused;
}

static void *writer(void *milliseconds) {
    struct timespec deadline = in(*(int *)milliseconds);
    int error = pthread_rwlock_timedwrlock(&lock, &deadline);
    count(error ? &timed_out : &had);
    if (!error) pthread_rwlock_unlock(&lock);
    has_ended = 1;
    return NULL;
}

/* A writer that waits while `main` reads, and readers behind it. */
static void run(int milliseconds, int reads_on) {
    pthread_t ids[READERS + 1], probe;
    had = timed_out = has_ended = 0;
    pthread_rwlock_rdlock(&lock);
    pthread_create(&ids[0], NULL, writer, &milliseconds);
    for (int i = 1; i <= READERS; i++) pthread_create(&ids[i], NULL, reader, NULL);
    if (!reads_on) {
        pthread_create(&probe, NULL, reader, NULL);
        pthread_rwlock_unlock(&lock);
        pthread_join(probe, NULL);
    }
    for (int i = 0; i <= READERS; i++) pthread_join(ids[i], NULL);
    if (reads_on) pthread_rwlock_unlock(&lock);
    printf("%d had the lock, %d timed out\n", had, timed_out);
}

static void *writes(void *unused) {
    for (int i = 0; i < ROUNDS; i++) {
        struct timespec late = in(1000000);
        int is_odd = i % 2;
        if (is_odd ? pthread_rwlock_timedwrlock(&again, &late) : pthread_rwlock_wrlock(&again)) break;
        sum++;
        pthread_rwlock_unlock(&again);
    }
    return unused;
}

/* A thread that reads may read again while others wait with a deadline and without. */
static void *reads_twice(void *unused) {
    for (int i = 0; i < ROUNDS; i++) {
        struct timespec late = in(1000000);
        if (pthread_rwlock_timedrdlock(&again, &late)) break;
        sched_yield();
        if (pthread_rwlock_rdlock(&again) == 0) pthread_rwlock_unlock(&again);
        pthread_rwlock_unlock(&again);
    }
    return unused;
}

static void crowd(void) {
    pthread_t ids[2 * READERS];
    for (int i = 0; i < 2 * READERS; i++) pthread_create(&ids[i], NULL, i % 2 ? writes : reads_twice, NULL);
    for (int i = 0; i < 2 * READERS; i++) pthread_join(ids[i], NULL);
    printf("%d writes\n", sum);
    say("free again", pthread_rwlock_trywrlock(&again));
    pthread_rwlock_unlock(&again);
}

int main(void) {
    struct timespec past = {0, 0}, none = {0, -1};
    make_lock();
    run(50, 1);
    run(1000000, 0);
    say("free, past", pthread_rwlock_timedwrlock(&lock, &past));
    say("own, past", pthread_rwlock_timedrdlock(&again, &past));
    say("own again, past", pthread_rwlock_timedrdlock(&again, &past));
    say("reader writes, past", pthread_rwlock_timedwrlock(&again, &past));
    say("reader writes, none", pthread_rwlock_timedwrlock(&again, &none));
    pthread_rwlock_unlock(&again);
    pthread_rwlock_unlock(&again);
    pthread_rwlock_unlock(&lock);
    crowd();
    say("destroy", pthread_rwlock_destroy(&lock));
    return 0;
}
