/*
 * Threads of ISO C for a guest (C11, 7.26), over those of <pthread.h>: a type here is the one there, and limits, deadlines
 * and cancellation points are the same.
 *
 * A call that can fail answers thrd_success or another of the five results.
 */
#ifndef GUEST_THREADS_H
#define GUEST_THREADS_H

#pragma GCC system_header

#include <pthread.h>
#include <time.h>

#ifdef __cplusplus
extern "C" {
#else
#define thread_local _Thread_local
#endif

enum { thrd_success, thrd_busy, thrd_error, thrd_nomem, thrd_timedout };

/* --- Once --------------------------------------------------------------------------------------------------------- */

typedef pthread_once_t once_flag;

#define ONCE_FLAG_INIT PTHREAD_ONCE_INIT

void call_once(once_flag *flag, void (*routine)(void));

/* --- Threads ------------------------------------------------------------------------------------------------------ */

typedef pthread_t thrd_t;
typedef int (*thrd_start_t)(void *);

int thrd_create(thrd_t *id, thrd_start_t start, void *argument); /* thrd_error: 64 threads are there, or no room */
thrd_t thrd_current(void);
int thrd_detach(thrd_t id);
int thrd_equal(thrd_t first, thrd_t second);
void thrd_exit(int result) __attribute__((noreturn));
int thrd_join(thrd_t id, int *result);                           /* result may be NULL */
int thrd_sleep(const struct timespec *duration, struct timespec *rest); /* 0, or -2 where it is no duration */
void thrd_yield(void);

/* --- Values of threads -------------------------------------------------------------------------------------------- */

typedef pthread_key_t tss_t;
typedef void (*tss_dtor_t)(void *);

#define TSS_DTOR_ITERATIONS PTHREAD_DESTRUCTOR_ITERATIONS

int tss_create(tss_t *key, tss_dtor_t destructor);               /* thrd_error: 32 keys are there */
void tss_delete(tss_t key);
void *tss_get(tss_t key);
int tss_set(tss_t key, void *value);

/* --- Mutexes ------------------------------------------------------------------------------------------------------ */

typedef pthread_mutex_t mtx_t;

/* A type is one of these, or two added: mtx_plain | mtx_recursive, mtx_timed | mtx_recursive. Each can be waited for with a
   deadline. */
enum { mtx_plain, mtx_recursive, mtx_timed };

int mtx_init(mtx_t *mutex, int type);                            /* thrd_error: no such type; 256 are in use */
void mtx_destroy(mtx_t *mutex);
int mtx_lock(mtx_t *mutex);
int mtx_timedlock(mtx_t *__restrict mutex, const struct timespec *__restrict deadline); /* thrd_timedout */
int mtx_trylock(mtx_t *mutex);                                   /* thrd_busy */
int mtx_unlock(mtx_t *mutex);

/* --- Condition variables ------------------------------------------------------------------------------------------ */

typedef pthread_cond_t cnd_t;

int cnd_init(cnd_t *condition);
void cnd_destroy(cnd_t *condition);
int cnd_wait(cnd_t *condition, mtx_t *mutex);
int cnd_timedwait(cnd_t *__restrict condition, mtx_t *__restrict mutex,
                  const struct timespec *__restrict deadline); /* thrd_timedout */
int cnd_signal(cnd_t *condition);
int cnd_broadcast(cnd_t *condition);

#ifdef __cplusplus
}
#endif

#endif
