/* Whether an object is shared with other processes: there are none. */
#include <errno.h>
#include <pthread.h>

static int set(int shared) {
    return shared == PTHREAD_PROCESS_PRIVATE ? 0 : shared == PTHREAD_PROCESS_SHARED ? ENOTSUP : EINVAL;
}

/* pthread_NAMEattr_setpshared and pthread_NAMEattr_getpshared. */
#define SHARED(name)                                                                                   \
    int pthread_##name##attr_setpshared(pthread_##name##attr_t *attributes, int shared) {              \
        (void)attributes;                                                                              \
        return set(shared);                                                                            \
    }                                                                                                  \
    int pthread_##name##attr_getpshared(const pthread_##name##attr_t *restrict attributes,             \
                                        int *restrict shared) {                                        \
        (void)attributes;                                                                              \
        *shared = PTHREAD_PROCESS_PRIVATE;                                                             \
        return 0;                                                                                      \
    }

SHARED(mutex)
SHARED(cond)
SHARED(barrier)
SHARED(rwlock)
