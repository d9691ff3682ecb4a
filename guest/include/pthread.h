/*
 * POSIX threads for a guest of ckrt.
 *
 * Every call here is one call of the runtime, which keeps the state of all threads and objects. An object's memory only
 * gives it its name, the address: so an object that was made by an `_init` with a type or a count has to be destroyed
 * before its memory is used for something else, and a copy of an object is another object.
 *
 * A call that can fail answers 0 or an error number of <errno.h>, and never EINTR: no signal comes from outside.
 * What a guest can't have isn't declared: processes, robust, priority-inheriting and process-shared objects.
 * Each constant is also a macro of its own name, since POSIX has symbolic constants (XBD 3) and programs ask #ifdef.
 */
#ifndef GUEST_PTHREAD_H
#define GUEST_PTHREAD_H

#pragma GCC system_header

#include <limits.h>
#include <sched.h>
#include <stddef.h>
#include <sys/types.h>
#include <time.h>

#ifdef __cplusplus
extern "C" {
#endif

/* No object is shared with other processes, as there are none: ENOTSUP for a shared one. */
enum { PTHREAD_PROCESS_PRIVATE, PTHREAD_PROCESS_SHARED };
#define PTHREAD_PROCESS_PRIVATE PTHREAD_PROCESS_PRIVATE
#define PTHREAD_PROCESS_SHARED PTHREAD_PROCESS_SHARED

/* --- Threads ------------------------------------------------------------------------------------------------------ */

/* The number of a thread, 1 to 64. It is free for a new thread once the old one was joined, or ended detached. */
typedef unsigned int pthread_t;

typedef struct {
    int detach_state;
    size_t stack_size;
    void *stack; /* its lowest byte; NULL: one of the heap */
    int inheritance;
} pthread_attr_t;

enum { PTHREAD_CREATE_JOINABLE, PTHREAD_CREATE_DETACHED };
#define PTHREAD_CREATE_JOINABLE PTHREAD_CREATE_JOINABLE
#define PTHREAD_CREATE_DETACHED PTHREAD_CREATE_DETACHED

/*
 * Where attributes don't say otherwise a new stack has a sixteenth of the memory that is free then, but at least 8,192
 * bytes and at most 65,536. Below it lies a guard of 64 bytes. A thread whose stack has overflowed is seen in its next call of the library, or when it
 * ends: `stack of thread T overflowed` is printed, and the process aborts. <limits.h> has PTHREAD_THREADS_MAX, 64, and
 * PTHREAD_STACK_MIN.
 */

int pthread_attr_init(pthread_attr_t *attributes);
int pthread_attr_destroy(pthread_attr_t *attributes);
int pthread_attr_setdetachstate(pthread_attr_t *attributes, int state);                /* EINVAL: no such state */
int pthread_attr_getdetachstate(const pthread_attr_t *attributes, int *state);
int pthread_attr_setstacksize(pthread_attr_t *attributes, size_t bytes);               /* EINVAL: below the minimum */
int pthread_attr_getstacksize(const pthread_attr_t *attributes, size_t *bytes);
int pthread_attr_setguardsize(pthread_attr_t *attributes, size_t bytes);               /* changes nothing */
int pthread_attr_getguardsize(const pthread_attr_t *attributes, size_t *bytes);        /* 64 */

enum { PTHREAD_SCOPE_SYSTEM, PTHREAD_SCOPE_PROCESS };
#define PTHREAD_SCOPE_SYSTEM PTHREAD_SCOPE_SYSTEM
#define PTHREAD_SCOPE_PROCESS PTHREAD_SCOPE_PROCESS

int pthread_attr_setscope(pthread_attr_t *attributes, int scope);                      /* ENOTSUP: of the process */
int pthread_attr_getscope(const pthread_attr_t *attributes, int *scope);

enum { PTHREAD_INHERIT_SCHED, PTHREAD_EXPLICIT_SCHED };
#define PTHREAD_INHERIT_SCHED PTHREAD_INHERIT_SCHED
#define PTHREAD_EXPLICIT_SCHED PTHREAD_EXPLICIT_SCHED

/* These change nothing, as who runs is decided outside: there is SCHED_OTHER alone, with the priority 0. */
int pthread_attr_setinheritsched(pthread_attr_t *attributes, int inheritance);         /* EINVAL: no such one */
int pthread_attr_getinheritsched(const pthread_attr_t *attributes, int *inheritance);
int pthread_attr_setschedpolicy(pthread_attr_t *attributes, int policy);               /* ENOTSUP: FIFO or RR. EINVAL */
int pthread_attr_getschedpolicy(const pthread_attr_t *attributes, int *policy);
int pthread_attr_setschedparam(pthread_attr_t *attributes, const struct sched_param *of); /* EINVAL: a priority */
int pthread_attr_getschedparam(const pthread_attr_t *attributes, struct sched_param *of);

/* A stack of the program's own, for one thread at a time. The guard lies in its first bytes. EINVAL: below the minimum. */
int pthread_attr_setstack(pthread_attr_t *attributes, void *stack, size_t bytes);
int pthread_attr_getstack(const pthread_attr_t *attributes, void **stack, size_t *bytes);

/* Of a thread that there is: what it was made with, and where its stack is. ESRCH: no such thread. */
int pthread_getattr_np(pthread_t id, pthread_attr_t *attributes);

/* The stack comes from the heap. EAGAIN: 64 threads are there, or the heap has no room. */
int pthread_create(pthread_t *__restrict id, const pthread_attr_t *__restrict attributes, void *(*start)(void *),
                   void *__restrict argument);

/* Cancellation point. Frees the thread's stack. EDEADLK: oneself. ESRCH: no such thread. EINVAL: detached, or another
   thread joins it already. */
int pthread_join(pthread_t id, void **value);

/* As on Linux. EBUSY: the thread goes on. ETIMEDOUT: it does so at the deadline; the caller looks again with each tick of
   the clock until then, and may be cancelled. EINVAL also: no such clock, no deadline. */
int pthread_tryjoin_np(pthread_t id, void **value);
int pthread_timedjoin_np(pthread_t id, void **value, const struct timespec *deadline);
int pthread_clockjoin_np(pthread_t id, void **value, clockid_t clock, const struct timespec *deadline);

/* The stack is freed when the thread ends. ESRCH: no such thread. EINVAL: detached, or another thread joins it. */
int pthread_detach(pthread_t id);

/* Runs the clean-up handlers, newest first, and the destructors of the thread's values, and ends the thread. The last thread
   that ends calls exit(0). */
void pthread_exit(void *value) __attribute__((noreturn));

pthread_t pthread_self(void);

int pthread_yield(void); /* sched_yield by its old name */

/* Of a thread as of attributes: SCHED_OTHER and the priority 0 alone. ESRCH: no such thread. */
int pthread_setschedparam(pthread_t id, int policy, const struct sched_param *of);     /* ENOTSUP: FIFO or RR. EINVAL */
int pthread_getschedparam(pthread_t id, int *__restrict policy, struct sched_param *__restrict of);
int pthread_setschedprio(pthread_t id, int priority);                                  /* EINVAL: another than 0 */

static __inline int pthread_equal(pthread_t first, pthread_t second) { return first == second; }

/* A name of up to 15 bytes, for whoever looks. ERANGE: a longer one, or less room than 16 bytes. ESRCH: no such thread. */
int pthread_setname_np(pthread_t id, const char *name);
int pthread_getname_np(pthread_t id, char *name, size_t bytes);

/* --- Once --------------------------------------------------------------------------------------------------------- */

/* Its address is also the name of a mutex. A number, as on Linux, so that `once = PTHREAD_ONCE_INIT` may be written. */
typedef int pthread_once_t;

#define PTHREAD_ONCE_INIT 0

/* A routine that is cancelled counts as one that was never called. */
int pthread_once(pthread_once_t *once, void (*routine)(void));

/* --- Cancellation ------------------------------------------------------------------------------------------------- */

enum { PTHREAD_CANCEL_ENABLE, PTHREAD_CANCEL_DISABLE };
enum { PTHREAD_CANCEL_DEFERRED, PTHREAD_CANCEL_ASYNCHRONOUS };
#define PTHREAD_CANCEL_ENABLE PTHREAD_CANCEL_ENABLE
#define PTHREAD_CANCEL_DISABLE PTHREAD_CANCEL_DISABLE
#define PTHREAD_CANCEL_DEFERRED PTHREAD_CANCEL_DEFERRED
#define PTHREAD_CANCEL_ASYNCHRONOUS PTHREAD_CANCEL_ASYNCHRONOUS

#define PTHREAD_CANCELED ((void *)-1)

/*
 * The cancellation points are pthread_join, pthread_cond_wait, pthread_cond_timedwait, pthread_testcancel, the waits of
 * <semaphore.h>, the sleeps of <time.h> and <unistd.h>, and the calls of <stdio.h> on the console: those that write before their
 * first byte, and only where the thread holds no stream by flockfile.
 * While a thread is asynchronous it may call pthread_cancel, pthread_setcancelstate and pthread_setcanceltype alone.
 */
int pthread_cancel(pthread_t id);                            /* ESRCH: no such thread */
int pthread_setcancelstate(int state, int *old_state);       /* EINVAL: no such state; old_state may be NULL */
int pthread_setcanceltype(int type, int *old_type);          /* EINVAL: no such type; old_type may be NULL */
void pthread_testcancel(void);

/*
 * A pair of macros, in one block: between them the routine is a clean-up handler of the thread. `execute` other than 0
 * runs it as it is taken away. A thread has at most 15 handlers at once, 13 while it reads from stdin; one more aborts
 * the program.
 */
#define pthread_cleanup_push(routine, argument) do { __guest_cleanup_push((routine), (argument));
#define pthread_cleanup_pop(execute) __guest_cleanup_pop(execute); } while (0)

void __guest_cleanup_push(void (*routine)(void *), void *argument);
void __guest_cleanup_pop(int execute);

/* --- Thread-specific data ----------------------------------------------------------------------------------------- */

/*
 * A value for each thread under each key, NULL at first. (`_Thread_local` variables are each thread's own too, without a
 * call.) Where a thread ends that has values other than NULL under keys with a destructor, each is set to NULL and given
 * to its destructor, by rising key; where these have set values again, once more, in PTHREAD_DESTRUCTOR_ITERATIONS rounds
 * at most. At the end of the process no destructor runs.
 * <limits.h> has PTHREAD_KEYS_MAX, 32. On a disk of an older version, whose program has no keys, pthread_key_create answers
 * ENOSYS.
 */
typedef unsigned int pthread_key_t;

int pthread_key_create(pthread_key_t *key, void (*destructor)(void *));                /* EAGAIN: 32 keys are there */
int pthread_key_delete(pthread_key_t key);                   /* EINVAL: no such key; no destructor runs */
int pthread_setspecific(pthread_key_t key, const void *value);                         /* EINVAL: no such key */
void *pthread_getspecific(pthread_key_t key);                /* NULL also where there is no such key */

/* --- Mutexes ------------------------------------------------------------------------------------------------------ */

typedef struct {
    int only_a_name;
} pthread_mutex_t;

typedef struct {
    int type;
} pthread_mutexattr_t;

enum {
    PTHREAD_MUTEX_NORMAL,      /* its owner's second lock waits for ever */
    PTHREAD_MUTEX_RECURSIVE,   /* its owner may lock it 65,535 times */
    PTHREAD_MUTEX_ERRORCHECK,  /* its owner's second lock is EDEADLK */
    PTHREAD_MUTEX_DEFAULT = PTHREAD_MUTEX_NORMAL
};
#define PTHREAD_MUTEX_NORMAL PTHREAD_MUTEX_NORMAL
#define PTHREAD_MUTEX_RECURSIVE PTHREAD_MUTEX_RECURSIVE
#define PTHREAD_MUTEX_ERRORCHECK PTHREAD_MUTEX_ERRORCHECK
#define PTHREAD_MUTEX_DEFAULT PTHREAD_MUTEX_DEFAULT

/* As on Linux. */
#define PTHREAD_MUTEX_TIMED_NP PTHREAD_MUTEX_NORMAL
#define PTHREAD_MUTEX_ADAPTIVE_NP PTHREAD_MUTEX_NORMAL
#define PTHREAD_MUTEX_RECURSIVE_NP PTHREAD_MUTEX_RECURSIVE
#define PTHREAD_MUTEX_ERRORCHECK_NP PTHREAD_MUTEX_ERRORCHECK

#define PTHREAD_MUTEX_INITIALIZER { 0 }

/* As on Linux: a mutex that has its type at its first lock. EAGAIN of that lock: 256 mutexes are in use. */
#define PTHREAD_RECURSIVE_MUTEX_INITIALIZER_NP { (int)__guest_recursive_mutex }
#define PTHREAD_ERRORCHECK_MUTEX_INITIALIZER_NP { (int)__guest_errorcheck_mutex }
#define PTHREAD_ADAPTIVE_MUTEX_INITIALIZER_NP PTHREAD_MUTEX_INITIALIZER

/* Their addresses are what such a mutex has in its memory until its first lock. */
extern const char __guest_recursive_mutex[], __guest_errorcheck_mutex[];

int pthread_mutexattr_init(pthread_mutexattr_t *attributes);
int pthread_mutexattr_destroy(pthread_mutexattr_t *attributes);
int pthread_mutexattr_settype(pthread_mutexattr_t *attributes, int type);              /* EINVAL: no such type */
int pthread_mutexattr_gettype(const pthread_mutexattr_t *attributes, int *type);
int pthread_mutexattr_setpshared(pthread_mutexattr_t *attributes, int shared);
int pthread_mutexattr_getpshared(const pthread_mutexattr_t *__restrict attributes, int *__restrict shared);

/* At most 256 mutexes are in use: locked, waited for, or of a type other than normal (the library uses six). The call
   that would use one more answers EAGAIN. */
int pthread_mutex_init(pthread_mutex_t *__restrict mutex, const pthread_mutexattr_t *__restrict attributes); /* EBUSY */
int pthread_mutex_destroy(pthread_mutex_t *mutex);           /* EBUSY: locked, or waited for */
int pthread_mutex_lock(pthread_mutex_t *mutex);              /* EAGAIN, EDEADLK */
int pthread_mutex_trylock(pthread_mutex_t *mutex);           /* EAGAIN; EBUSY: locked */
int pthread_mutex_unlock(pthread_mutex_t *mutex);            /* EPERM, for every type: the caller isn't the owner */

/* The deadline is a moment of the clock, see <time.h>. It is looked at only where the call would wait: EINVAL where it
   is none, ETIMEDOUT once it has come. */
int pthread_mutex_timedlock(pthread_mutex_t *__restrict mutex, const struct timespec *__restrict deadline);
int pthread_mutex_clocklock(pthread_mutex_t *__restrict mutex, clockid_t clock,
                            const struct timespec *__restrict deadline);

/* --- Condition variables ------------------------------------------------------------------------------------------ */

typedef struct {
    int only_a_name;
} pthread_cond_t;

typedef struct {
    clockid_t clock;
} pthread_condattr_t;

#define PTHREAD_COND_INITIALIZER { 0 }

int pthread_condattr_init(pthread_condattr_t *attributes);
int pthread_condattr_destroy(pthread_condattr_t *attributes);
int pthread_condattr_setclock(pthread_condattr_t *attributes, clockid_t clock);        /* EINVAL: no such clock */
int pthread_condattr_getclock(const pthread_condattr_t *__restrict attributes, clockid_t *__restrict clock);
int pthread_condattr_setpshared(pthread_condattr_t *attributes, int shared);
int pthread_condattr_getpshared(const pthread_condattr_t *__restrict attributes, int *__restrict shared);

int pthread_cond_init(pthread_cond_t *__restrict condition, const pthread_condattr_t *__restrict attributes); /* EBUSY */
int pthread_cond_destroy(pthread_cond_t *condition);         /* EBUSY: waited for */

/* Cancellation points. Only a signal, a broadcast or the deadline ends a wait; by the option -spurious some end without.
   EPERM: the mutex isn't the caller's. EINVAL: others wait with another mutex; no such deadline. ETIMEDOUT. */
int pthread_cond_wait(pthread_cond_t *__restrict condition, pthread_mutex_t *__restrict mutex);
int pthread_cond_timedwait(pthread_cond_t *__restrict condition, pthread_mutex_t *__restrict mutex,
                           const struct timespec *__restrict deadline);
int pthread_cond_clockwait(pthread_cond_t *__restrict condition, pthread_mutex_t *__restrict mutex, clockid_t clock,
                           const struct timespec *__restrict deadline);

int pthread_cond_signal(pthread_cond_t *condition);          /* wakes the thread that has waited longest */
int pthread_cond_broadcast(pthread_cond_t *condition);

/* --- Barriers ----------------------------------------------------------------------------------------------------- */

typedef struct {
    int only_a_name;
} pthread_barrier_t;

typedef struct {
    int nothing;
} pthread_barrierattr_t;

#define PTHREAD_BARRIER_SERIAL_THREAD (-1)

int pthread_barrierattr_init(pthread_barrierattr_t *attributes);
int pthread_barrierattr_destroy(pthread_barrierattr_t *attributes);
int pthread_barrierattr_setpshared(pthread_barrierattr_t *attributes, int shared);
int pthread_barrierattr_getpshared(const pthread_barrierattr_t *__restrict attributes, int *__restrict shared);

/* EBUSY: waited for. EINVAL: the count is 0. EAGAIN: 64 barriers are there. */
int pthread_barrier_init(pthread_barrier_t *__restrict barrier, const pthread_barrierattr_t *__restrict attributes,
                         unsigned int count);
int pthread_barrier_destroy(pthread_barrier_t *barrier);     /* EBUSY: waited for. EINVAL: no barrier */
int pthread_barrier_wait(pthread_barrier_t *barrier);        /* 0; for the last PTHREAD_BARRIER_SERIAL_THREAD */

/* --- Read-write locks --------------------------------------------------------------------------------------------- */

typedef struct {
    unsigned queued; /* threads, while some of them wait with a deadline */
} pthread_rwlock_t;

typedef struct {
    int kind;
} pthread_rwlockattr_t;

#define PTHREAD_RWLOCK_INITIALIZER { 0 }

/* As on Linux; they change nothing, as there is one order: see below. */
enum { PTHREAD_RWLOCK_PREFER_READER_NP, PTHREAD_RWLOCK_PREFER_WRITER_NP, PTHREAD_RWLOCK_PREFER_WRITER_NONRECURSIVE_NP };
#define PTHREAD_RWLOCK_PREFER_READER_NP PTHREAD_RWLOCK_PREFER_READER_NP
#define PTHREAD_RWLOCK_PREFER_WRITER_NP PTHREAD_RWLOCK_PREFER_WRITER_NP
#define PTHREAD_RWLOCK_PREFER_WRITER_NONRECURSIVE_NP PTHREAD_RWLOCK_PREFER_WRITER_NONRECURSIVE_NP
#define PTHREAD_RWLOCK_WRITER_NONRECURSIVE_INITIALIZER_NP PTHREAD_RWLOCK_INITIALIZER

int pthread_rwlockattr_init(pthread_rwlockattr_t *attributes);
int pthread_rwlockattr_destroy(pthread_rwlockattr_t *attributes);
int pthread_rwlockattr_setkind_np(pthread_rwlockattr_t *attributes, int kind);         /* EINVAL: no such kind */
int pthread_rwlockattr_getkind_np(const pthread_rwlockattr_t *attributes, int *kind);
int pthread_rwlockattr_setpshared(pthread_rwlockattr_t *attributes, int shared);
int pthread_rwlockattr_getpshared(const pthread_rwlockattr_t *__restrict attributes, int *__restrict shared);

int pthread_rwlock_init(pthread_rwlock_t *__restrict lock, const pthread_rwlockattr_t *__restrict attributes); /* EBUSY */
int pthread_rwlock_destroy(pthread_rwlock_t *lock);          /* EBUSY: held, or waited for */

/* No reader passes a waiting thread, but one that reads already. EDEADLK: the caller writes; for a writer also: it
   reads. EAGAIN: 64 locks are held; the caller has 65,535 read locks. */
int pthread_rwlock_rdlock(pthread_rwlock_t *lock);
int pthread_rwlock_wrlock(pthread_rwlock_t *lock);
int pthread_rwlock_tryrdlock(pthread_rwlock_t *lock);        /* EBUSY where the call would wait, or be EDEADLK */
int pthread_rwlock_trywrlock(pthread_rwlock_t *lock);
int pthread_rwlock_unlock(pthread_rwlock_t *lock);           /* EPERM: the caller doesn't hold it */

/* While a thread waits with a deadline, whoever comes to the lock waits behind it, but a thread that holds a read-write lock.
   EINVAL: no deadline. ETIMEDOUT, also where the caller itself is in the way. */
int pthread_rwlock_timedrdlock(pthread_rwlock_t *__restrict lock, const struct timespec *__restrict deadline);
int pthread_rwlock_timedwrlock(pthread_rwlock_t *__restrict lock, const struct timespec *__restrict deadline);
int pthread_rwlock_clockrdlock(pthread_rwlock_t *__restrict lock, clockid_t clock,
                               const struct timespec *__restrict deadline);
int pthread_rwlock_clockwrlock(pthread_rwlock_t *__restrict lock, clockid_t clock,
                               const struct timespec *__restrict deadline);

/* --- Spin locks --------------------------------------------------------------------------------------------------- */

/* A mutex of another name: a thread that waits doesn't run. Its owner's second lock waits for ever. */
typedef struct {
    int only_a_name;
} pthread_spinlock_t;

int pthread_spin_init(pthread_spinlock_t *lock, int shared);
int pthread_spin_destroy(pthread_spinlock_t *lock);
int pthread_spin_lock(pthread_spinlock_t *lock);
int pthread_spin_trylock(pthread_spinlock_t *lock);          /* EBUSY */
int pthread_spin_unlock(pthread_spinlock_t *lock);           /* EPERM: the caller isn't the owner */

#ifdef __cplusplus
}
#endif

#endif
