/*
 * Mutexes that have a type by an initialiser, as Linux has them: PTHREAD_RECURSIVE_MUTEX_INITIALIZER_NP and its kin.
 *
 * The initialiser writes an address of this file into the mutex, and the first lock makes the mutex of that type and takes
 * the address away. So this file is linked where a program has such an initialiser (see guest/cc), and its calls stand for
 * those of mutex.c: no other program's lock looks at the memory of a mutex.
 */
#include "calls.h"
#include "clock.h"
#include "fenced.h"
#include <pthread.h>

const char __guest_recursive_mutex[] = "recursive", __guest_errorcheck_mutex[] = "errorcheck";

/* Threads that come at once all make the mutex, or find that another one has locked it: then it is made. */
static int make(pthread_mutex_t *mutex, int type) {
    int error = object_call(CALL_MUTEX_INIT, mutex, (uint32_t)type, 0, 0);
    if (error != 0 && error != EBUSY) return error;
    store_word((volatile uint32_t *)mutex, 0);
    return 0;
}

static int make_if_marked(pthread_mutex_t *mutex) {
    uint32_t mark = load_word((volatile uint32_t *)mutex);
    if (mark == (uint32_t)__guest_recursive_mutex) return make(mutex, PTHREAD_MUTEX_RECURSIVE);
    if (mark == (uint32_t)__guest_errorcheck_mutex) return make(mutex, PTHREAD_MUTEX_ERRORCHECK);
    return 0;
}

int pthread_mutex_init(pthread_mutex_t *restrict mutex, const pthread_mutexattr_t *restrict attributes) {
    int type = attributes ? attributes->type : PTHREAD_MUTEX_DEFAULT;
    store_word((volatile uint32_t *)mutex, 0);
    return object_call(CALL_MUTEX_INIT, mutex, (uint32_t)type, 0, 0);
}

int pthread_mutex_lock(pthread_mutex_t *mutex) {
    int error = make_if_marked(mutex);
    return error ? error : object_call(CALL_MUTEX_LOCK, mutex, 0, 0, 0);
}

int pthread_mutex_trylock(pthread_mutex_t *mutex) {
    int error = make_if_marked(mutex);
    return error ? error : object_call(CALL_MUTEX_TRYLOCK, mutex, 0, 0, 0);
}

int pthread_mutex_timedlock(pthread_mutex_t *restrict mutex, const struct timespec *restrict deadline) {
    int error = make_if_marked(mutex);
    uint64_t moment = __guest_moment(deadline);
    return error ? error : object_call(CALL_MUTEX_TIMEDLOCK, mutex, low_word(moment), high_word(moment), 0);
}
