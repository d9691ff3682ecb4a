/* What <unistd.h> says of the options of POSIX is what `sysconf` answers, and the limits of <limits.h> too. */
#include <errno.h>
#include <limits.h>
#include <pthread.h>
#include <regex.h>
#include <semaphore.h>
#include <stdio.h>
#include <unistd.h>
#include <time.h>

/* A constant of 0 leaves it to `sysconf`, one of -1 is an option that isn't there. */
static void compare(const char *name, long constant, long answer) {
    int is_same = constant == 0 || constant == answer;
    printf("%s: %s\n", name, is_same ? "the same" : "another");
    if (!is_same) printf("%ld and %ld\n", constant, answer);
}

/* These are there, here and everywhere. */
static void there(const char *name, long constant, long answer) {
    printf("%s: %s\n", name, constant >= 200112 && answer >= 200112 ? "there" : "not there");
    compare(name, constant, answer);
}

#define BOTH(name) #name, _POSIX_##name, sysconf(_SC_##name)

static void options(void) {
    there(BOTH(VERSION));
    there(BOTH(THREADS));
    there(BOTH(THREAD_SAFE_FUNCTIONS));
    there(BOTH(THREAD_ATTR_STACKSIZE));
    there(BOTH(BARRIERS));
    there(BOTH(SPIN_LOCKS));
    there(BOTH(READER_WRITER_LOCKS));
    there(BOTH(SEMAPHORES));
    there(BOTH(TIMEOUTS));
    there(BOTH(CLOCK_SELECTION));
    compare(BOTH(MONOTONIC_CLOCK));
    compare(BOTH(TIMERS));
    compare(BOTH(CPUTIME));
    compare(BOTH(THREAD_CPUTIME));
    compare(BOTH(THREAD_PRIO_INHERIT));
    compare(BOTH(THREAD_PRIO_PROTECT));
    compare(BOTH(THREAD_PRIORITY_SCHEDULING));
    compare(BOTH(THREAD_PROCESS_SHARED));
    compare(BOTH(THREAD_ATTR_STACKADDR));
    compare(BOTH(PRIORITY_SCHEDULING));
    compare(BOTH(REALTIME_SIGNALS));
    compare(BOTH(ASYNCHRONOUS_IO));
    compare(BOTH(MAPPED_FILES));
    compare(BOTH(MEMORY_PROTECTION));
    compare(BOTH(MESSAGE_PASSING));
    compare(BOTH(SHARED_MEMORY_OBJECTS));
    compare(BOTH(SPAWN));
}

static void limits(void) {
    compare("iterations", PTHREAD_DESTRUCTOR_ITERATIONS, sysconf(_SC_THREAD_DESTRUCTOR_ITERATIONS));
    compare("keys", PTHREAD_KEYS_MAX, sysconf(_SC_THREAD_KEYS_MAX));
    compare("values", SEM_VALUE_MAX, sysconf(_SC_SEM_VALUE_MAX) < 0 ? SEM_VALUE_MAX : sysconf(_SC_SEM_VALUE_MAX));
#ifndef __GLIBC__ /* which has no such limits */
    if (PTHREAD_THREADS_MAX != sysconf(_SC_THREAD_THREADS_MAX)) puts("another number of threads");
    if (PTHREAD_THREADS_MAX < _POSIX_THREAD_THREADS_MAX) puts("too few threads");
    if (SEM_NSEMS_MAX != sysconf(_SC_SEM_NSEMS_MAX)) puts("another number of semaphores");
    if (PTHREAD_STACK_MIN != sysconf(_SC_THREAD_STACK_MIN)) puts("another least stack");
#endif
    errno = 0;
    printf("a name that there isn't: %ld", sysconf(99999));
    printf(", %s\n", errno == EINVAL ? "EINVAL" : "another error");
}

static void expressions(void) {
    regex_t expression;
    regmatch_t place;
    int error = regcomp(&expression, "b+c", REG_EXTENDED);
    if (!error) error = regexec(&expression, "aabbbcd", 1, &place, 0);
    printf("%d, from %d to %d\n", error, (int)place.rm_so, (int)place.rm_eo);
    regfree(&expression);
}

int main(void) {
    struct timespec now;
    options();
    limits();
    expressions();
    printf("the clock: %d\n", clock_gettime(CLOCK_MONOTONIC, &now));
    return 0;
}
