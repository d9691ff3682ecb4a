/* Calls of Linux and POSIX that portable programs make: waits by a clock, joins with a deadline, attributes of scheduling. */
#define _GNU_SOURCE
#include <errno.h>
#include <pthread.h>
#include <sched.h>
#include <semaphore.h>
#include <signal.h>
#include <stdio.h>
#include <time.h>
#include <unistd.h>

#pragma GCC diagnostic ignored "-Wdeprecated-declarations" /* pthread_yield */

static pthread_rwlock_t lock = PTHREAD_RWLOCK_INITIALIZER;
static sem_t go, never;
static volatile sig_atomic_t handled;

static const char *name_of(int error) {
    switch (error) {
    case 0: return "0";
    case EBUSY: return "EBUSY";
    case EINVAL: return "EINVAL";
    case ETIMEDOUT: return "ETIMEDOUT";
    default: return "another";
    }
}

static void say(const char *what, int error) { printf("%-36s %s\n", what, name_of(error)); }

static struct timespec in(clockid_t clock, int seconds) {
    struct timespec time;
    clock_gettime(clock, &time);
    time.tv_sec += seconds;
    return time;
}

static struct timespec soon(clockid_t clock) {
    struct timespec time = in(clock, 0);
    time.tv_nsec += 20000000;
    if (time.tv_nsec >= 1000000000) time = in(clock, 1);
    return time;
}

/* While main writes. */
static void *reader(void *unused) {
    struct timespec moment = soon(CLOCK_MONOTONIC), none = {0, -1};
    say("read by a clock", pthread_rwlock_clockrdlock(&lock, CLOCK_MONOTONIC, &moment));
    say("write by a clock", pthread_rwlock_clockwrlock(&lock, CLOCK_MONOTONIC, &moment));
    say("read, no deadline", pthread_rwlock_clockrdlock(&lock, CLOCK_REALTIME, &none));
    return unused;
}

static void locks(void) {
    pthread_t id;
    struct timespec moment = in(CLOCK_REALTIME, 1000);
    say("write by a clock", pthread_rwlock_clockwrlock(&lock, CLOCK_REALTIME, &moment));
    pthread_create(&id, NULL, reader, NULL);
    pthread_join(id, NULL);
    say("unlock", pthread_rwlock_unlock(&lock));
    say("read by a clock", pthread_rwlock_clockrdlock(&lock, CLOCK_REALTIME, &moment));
    say("unlock", pthread_rwlock_unlock(&lock));
    say("no such clock", pthread_rwlock_clockrdlock(&lock, (clockid_t)99, &moment));
    say("no such clock", pthread_rwlock_clockwrlock(&lock, (clockid_t)99, &moment));
}

static void semaphores(void) {
    struct timespec moment = soon(CLOCK_MONOTONIC);
    int result = sem_clockwait(&never, CLOCK_MONOTONIC, &moment);
    printf("%d, ", result);
    say("a wait by a clock", errno);
    sem_post(&never);
    printf("%d\n", sem_clockwait(&never, CLOCK_MONOTONIC, &moment));
}

static void *waits(void *value) {
    while (sem_wait(&go) != 0) continue;
    return value;
}

static void joins(void) {
    static int one;
    struct timespec past = {0, 0}, moment;
    pthread_t id;
    void *value = NULL;
    pthread_create(&id, NULL, waits, &one);
    say("kill by 0", pthread_kill(id, 0));
    say("try to join", pthread_tryjoin_np(id, &value));
    say("join, deadline past", pthread_timedjoin_np(id, &value, &past));
    moment = soon(CLOCK_REALTIME);
    say("join by a deadline", pthread_timedjoin_np(id, &value, &moment));
    moment = soon(CLOCK_MONOTONIC);
    say("join by a clock", pthread_clockjoin_np(id, &value, CLOCK_MONOTONIC, &moment));
    say("join, no such clock", pthread_clockjoin_np(id, &value, (clockid_t)99, &moment));
    printf("no value yet: %d\n", value == NULL);
    sem_post(&go);
    moment = in(CLOCK_MONOTONIC, 1000);
    say("join by a clock", pthread_clockjoin_np(id, &value, CLOCK_MONOTONIC, &moment));
    printf("the value: %d\n", value == &one);
}

/* A thread that is joined by trying, and one that is joined without a deadline. */
static void tries(void) {
    static int two;
    pthread_t id;
    void *value = NULL;
    int error;
    sem_post(&go);
    pthread_create(&id, NULL, waits, &two);
    while ((error = pthread_tryjoin_np(id, &value)) == EBUSY) usleep(1000);
    say("try until it has ended", error);
    printf("the value: %d\n", value == &two);
    sem_post(&go);
    pthread_create(&id, NULL, waits, NULL);
    say("join for ever", pthread_timedjoin_np(id, NULL, NULL));
}

static void attributes(void) {
    pthread_attr_t of;
    struct sched_param priority = {.sched_priority = 7};
    int value = 99;
    pthread_t id;
    pthread_attr_init(&of);
    pthread_attr_getinheritsched(&of, &value);
    printf("inherits: %d\n", value == PTHREAD_INHERIT_SCHED);
    say("explicit", pthread_attr_setinheritsched(&of, PTHREAD_EXPLICIT_SCHED));
    pthread_attr_getinheritsched(&of, &value);
    printf("explicit: %d\n", value == PTHREAD_EXPLICIT_SCHED);
    say("no such one", pthread_attr_setinheritsched(&of, 99));
    say("other", pthread_attr_setschedpolicy(&of, SCHED_OTHER));
    say("no such policy", pthread_attr_setschedpolicy(&of, 99));
    pthread_attr_getschedpolicy(&of, &value);
    printf("other: %d\n", value == SCHED_OTHER);
    say("a priority", pthread_attr_setschedparam(&of, &priority));
    priority.sched_priority = 0;
    say("no priority", pthread_attr_setschedparam(&of, &priority));
    pthread_attr_getschedparam(&of, &priority);
    pthread_attr_getscope(&of, &value);
    printf("priority %d, of the system: %d\n", priority.sched_priority, value == PTHREAD_SCOPE_SYSTEM);
    sem_post(&go);
    say("create", pthread_create(&id, &of, waits, NULL));
    say("join", pthread_join(id, NULL));
}

static void note(int number) { handled = number; }

int main(void) {
    sem_init(&go, 0, 0);
    sem_init(&never, 0, 0);
    locks();
    semaphores();
    joins();
    tries();
    attributes();
    signal(SIGTERM, note);
    say("kill oneself", pthread_kill(pthread_self(), SIGTERM));
    printf("handled: %d\n", handled == SIGTERM);
    say("no such signal", pthread_kill(pthread_self(), 9999));
    say("yield", pthread_yield());
    return 0;
}
