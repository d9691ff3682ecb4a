/* What programs ask of a system: the process's number, limits, and the console by its numbers 0, 1 and 2. */
#include <errno.h>
#include <limits.h>
#include <pthread.h>
#include <sched.h>
#include <semaphore.h>
#include <stdbool.h>
#include <stdio.h>
#include <unistd.h>

enum { PROCESS = 1, PAGE_BYTES = 4096, MOST_HARTS = 8, TICKS_A_SECOND = 1000 };

#ifdef GUEST_FILES
#include "../files/descriptors.h"
#else
enum { MOST_OPEN = 3 };
#endif

pid_t getpid(void) { return PROCESS; }

int sched_yield(void) { return 0; }

/* An option or a limit that isn't there leaves `errno`; a name that there isn't is an error. */
static long none(int name) {
    if (name < _SC_ARG_MAX || name > _SC_POSIX_26_VERSION) errno = EINVAL;
    return -1;
}

long sysconf(int name) {
    switch (name) {
    case _SC_PAGESIZE: return PAGE_BYTES;
    case _SC_NPROCESSORS_CONF:
    case _SC_NPROCESSORS_ONLN: return MOST_HARTS;
    case _SC_CLK_TCK: return TICKS_A_SECOND;
    case _SC_OPEN_MAX: return MOST_OPEN;
    case _SC_THREAD_THREADS_MAX: return PTHREAD_THREADS_MAX;
    case _SC_THREAD_STACK_MIN: return PTHREAD_STACK_MIN;
    case _SC_THREAD_KEYS_MAX: return PTHREAD_KEYS_MAX;
    case _SC_THREAD_DESTRUCTOR_ITERATIONS: return PTHREAD_DESTRUCTOR_ITERATIONS;
    case _SC_SEM_NSEMS_MAX: return SEM_NSEMS_MAX;
    case _SC_SEM_VALUE_MAX: return SEM_VALUE_MAX;
    case _SC_VERSION: return _POSIX_VERSION;
    case _SC_BARRIERS: return _POSIX_BARRIERS;
    case _SC_CLOCK_SELECTION: return _POSIX_CLOCK_SELECTION;
    case _SC_MONOTONIC_CLOCK: return _POSIX_MONOTONIC_CLOCK;
    case _SC_READER_WRITER_LOCKS: return _POSIX_READER_WRITER_LOCKS;
    case _SC_REGEXP: return _POSIX_REGEXP;
    case _SC_SEMAPHORES: return _POSIX_SEMAPHORES;
    case _SC_SPIN_LOCKS: return _POSIX_SPIN_LOCKS;
    case _SC_THREAD_ATTR_STACKADDR: return _POSIX_THREAD_ATTR_STACKADDR;
    case _SC_THREAD_ATTR_STACKSIZE: return _POSIX_THREAD_ATTR_STACKSIZE;
    case _SC_THREAD_SAFE_FUNCTIONS: return _POSIX_THREAD_SAFE_FUNCTIONS;
    case _SC_THREADS: return _POSIX_THREADS;
    case _SC_TIMEOUTS: return _POSIX_TIMEOUTS;
    default: return none(name);
    }
}

#ifndef GUEST_FILES /* whose own are in files/descriptors.c */

int isatty(int number) {
    errno = number >= STDIN_FILENO && number <= STDERR_FILENO ? ENOTTY : EBADF;
    return 0;
}

ssize_t write(int number, const void *from, size_t count) {
    pthread_testcancel();
    if (number == STDOUT_FILENO || number == STDERR_FILENO) return (ssize_t)fwrite(from, 1, count, stdout);
    errno = EBADF;
    return -1;
}

static void unlock(void *stream) { funlockfile(stream); }

/* Reads as from a terminal: to the end of a line at most. */
ssize_t read(int number, void *to, size_t count) {
    char *at = to, *end = at + count;
    int byte = 0;
    if (number != STDIN_FILENO) {
        errno = EBADF;
        return -1;
    }
    flockfile(stdin);
    pthread_cleanup_push(unlock, stdin);
    while (at < end && byte != '\n' && (byte = getc(stdin)) != EOF) *at++ = (char)byte;
    pthread_cleanup_pop(1);
    return at - (char *)to;
}

#endif
