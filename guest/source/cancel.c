/* Cancellation and clean-up handlers; taking a handler away is in thread_end.S. What tells of an error and ends the process disables
   cancellation: a request that is pending mustn't hide it. */
#include "calls.h"
#include <pthread.h>
#include <stdio.h>
#include <stdlib.h>

int pthread_cancel(pthread_t id) { return error_of(runtime(CALL_CANCEL, id, 0, 0, 0).result); }

static int set(uint32_t number, int new, int *old) {
    struct answer answer = runtime(number, (uint32_t)new, 0, 0, 0);
    if (answer.result == 0 && old) *old = (int)answer.value;
    return error_of(answer.result);
}

int pthread_setcancelstate(int state, int *old_state) { return set(CALL_SETCANCELSTATE, state, old_state); }

int pthread_setcanceltype(int type, int *old_type) { return set(CALL_SETCANCELTYPE, type, old_type); }

void pthread_testcancel(void) { runtime(CALL_TESTCANCEL, 0, 0, 0, 0); }

void __guest_cleanup_push(void (*routine)(void *), void *argument) {
    if (runtime(CALL_CLEANUP_PUSH, (uint32_t)routine, (uint32_t)argument, 0, 0).result == 0) return;
    pthread_setcancelstate(PTHREAD_CANCEL_DISABLE, NULL);
    fputs("pthread_cleanup_push: no room for one more handler\n", stderr);
    abort();
}

/* In place of the C library's. */
void __assert_func(const char *file, int line, const char *function, const char *text) {
    pthread_setcancelstate(PTHREAD_CANCEL_DISABLE, NULL);
    fprintf(stderr, "assertion \"%s\" failed: file \"%s\", line %d, function: %s\n", text, file, line, function ? function : "?");
    abort();
}
