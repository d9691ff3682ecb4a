/* Symbolic constants are macros, as POSIX has them (XBD 3, symbolic constant), and each is another value than its neighbours. */
#include <pthread.h>
#include <semaphore.h>
#include <stdio.h>
#include <time.h>

#if !defined PTHREAD_PROCESS_PRIVATE || !defined PTHREAD_PROCESS_SHARED
#error "whether an object is shared"
#endif
#if !defined PTHREAD_CREATE_JOINABLE || !defined PTHREAD_CREATE_DETACHED
#error "whether a thread is detached"
#endif
#if !defined PTHREAD_SCOPE_SYSTEM || !defined PTHREAD_SCOPE_PROCESS
#error "scopes"
#endif
#if !defined PTHREAD_CANCEL_ENABLE || !defined PTHREAD_CANCEL_DISABLE
#error "states of cancellation"
#endif
#if !defined PTHREAD_CANCEL_DEFERRED || !defined PTHREAD_CANCEL_ASYNCHRONOUS
#error "types of cancellation"
#endif
#if !defined PTHREAD_CANCELED || !defined PTHREAD_BARRIER_SERIAL_THREAD || !defined PTHREAD_ONCE_INIT
#error "values"
#endif
#if !defined PTHREAD_MUTEX_INITIALIZER || !defined PTHREAD_COND_INITIALIZER || !defined PTHREAD_RWLOCK_INITIALIZER
#error "initialisers"
#endif
#if !defined SEM_FAILED || !defined CLOCK_REALTIME || !defined CLOCK_MONOTONIC || !defined TIMER_ABSTIME
#error "semaphores and clocks"
#endif

/* The C library of Linux has enumerators alone of these. */
#ifndef __GLIBC__
#if !defined PTHREAD_MUTEX_NORMAL || !defined PTHREAD_MUTEX_RECURSIVE
#error "types of mutexes"
#endif
#if !defined PTHREAD_MUTEX_ERRORCHECK || !defined PTHREAD_MUTEX_DEFAULT
#error "types of mutexes"
#endif
#endif

static void show(const char *name, int first, int second) {
    printf("%s: %s\n", name, first == second ? "the same" : "two values");
}

int main(void) {
    show("shared", PTHREAD_PROCESS_PRIVATE, PTHREAD_PROCESS_SHARED);
    show("detached", PTHREAD_CREATE_JOINABLE, PTHREAD_CREATE_DETACHED);
    show("scope", PTHREAD_SCOPE_SYSTEM, PTHREAD_SCOPE_PROCESS);
    show("state", PTHREAD_CANCEL_ENABLE, PTHREAD_CANCEL_DISABLE);
    show("type", PTHREAD_CANCEL_DEFERRED, PTHREAD_CANCEL_ASYNCHRONOUS);
    show("normal and recursive", PTHREAD_MUTEX_NORMAL, PTHREAD_MUTEX_RECURSIVE);
    show("recursive and error checking", PTHREAD_MUTEX_RECURSIVE, PTHREAD_MUTEX_ERRORCHECK);
    show("default", PTHREAD_MUTEX_DEFAULT, PTHREAD_MUTEX_NORMAL);
    return 0;
}
