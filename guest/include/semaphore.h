/*
 * Semaphores of a guest, for threads of the one process: those without a name, and those with one.
 *
 * A semaphore's count is in its memory; threads wait at a condition under its address. Who waited longest is woken,
 * but a thread that comes by may be quicker. The calls answer 0, or -1 with `errno`.
 */
#ifndef GUEST_SEMAPHORE_H
#define GUEST_SEMAPHORE_H

#pragma GCC system_header

#include <sys/types.h>
#include <time.h>

#ifdef __cplusplus
extern "C" {
#endif

#define SEM_FAILED ((sem_t *)0)

#ifndef SEM_VALUE_MAX /* which <limits.h> has too */
#define SEM_VALUE_MAX 2147483647
#endif

typedef struct {
    unsigned count;
} sem_t;

/* The name is a slash and up to 251 other characters; as on Linux the slash may be left out. <fcntl.h> has O_CREAT and O_EXCL; with
   O_CREAT a mode, which says nothing, and a count follow. The same name gives the same semaphore until sem_unlink. SEM_FAILED with
   EEXIST, EINVAL, ENAMETOOLONG, ENOENT, ENOMEM. */
sem_t *sem_open(const char *name, int flags, ...);
int sem_close(sem_t *semaphore);                               /* EINVAL: not open */
int sem_unlink(const char *name);                              /* ENAMETOOLONG, ENOENT */

int sem_init(sem_t *semaphore, int is_shared, unsigned count); /* EINVAL: too large. ENOSYS: shared with processes */
int sem_destroy(sem_t *semaphore);                             /* EBUSY: waited for */
int sem_post(sem_t *semaphore);                                /* EOVERFLOW */
int sem_trywait(sem_t *semaphore);                             /* EAGAIN: the count is 0 */
int sem_getvalue(sem_t *semaphore, int *count);

/* Cancellation points. The deadline is looked at only where the call would wait: EINVAL where it is none, ETIMEDOUT. */
int sem_wait(sem_t *semaphore);
int sem_timedwait(sem_t *__restrict semaphore, const struct timespec *__restrict deadline);
int sem_clockwait(sem_t *__restrict semaphore, clockid_t clock, const struct timespec *__restrict deadline);

#ifdef __cplusplus
}
#endif

#endif
