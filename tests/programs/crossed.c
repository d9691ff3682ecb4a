/* Orders of locks, a case by -DCASE: two threads, or three and five, of which each goes on once the one before is done, so that none waits for a lock. */
#include <pthread.h>
#include <semaphore.h>
#include <stdio.h>
#include <time.h>

#ifndef CASE
#define CASE OPPOSITE
#endif
#define OPPOSITE 1
#define GATED 2
#define ALONE 3
#define THREE 4
#define FIVE 5
#define READERS 6
#define WRITERS 7
#define TRIED 8
#define TIMED 9
#define REMADE 10
#define AGAIN 11
#define READ_GATE 12
#define RECURSIVE 13
#define SPUN 14
#define ONE_OF_THREE 15

#if CASE == THREE || CASE == ONE_OF_THREE
#define COUNT 3
#elif CASE == FIVE
#define COUNT 5
#else
#define COUNT 2
#endif

static pthread_mutex_t locks[COUNT];
static pthread_mutex_t gate = PTHREAD_MUTEX_INITIALIZER;
static __attribute__((unused)) pthread_rwlock_t shared[2] = {PTHREAD_RWLOCK_INITIALIZER, PTHREAD_RWLOCK_INITIALIZER};
static __attribute__((unused)) pthread_rwlock_t door = PTHREAD_RWLOCK_INITIALIZER;
static __attribute__((unused)) pthread_cond_t condition = PTHREAD_COND_INITIALIZER;
static pthread_spinlock_t spins[2];
static sem_t turns[COUNT + 1];
static __attribute__((unused)) int is_seen;

static void both(pthread_mutex_t *first, pthread_mutex_t *second) {
    pthread_mutex_lock(first);
    pthread_mutex_lock(second);
    pthread_mutex_unlock(second);
    pthread_mutex_unlock(first);
}

#if CASE == OPPOSITE || CASE == THREE || CASE == FIVE
static void act(int me) { both(&locks[me], &locks[(me + 1) % COUNT]); }
#elif CASE == GATED
static void act(int me) {
    pthread_mutex_lock(&gate);
    both(&locks[me], &locks[1 - me]);
    pthread_mutex_unlock(&gate);
}
#elif CASE == ALONE
static void act(int me) {
    if (me == 1) return;
    both(&locks[0], &locks[1]);
    both(&locks[1], &locks[0]);
}
#elif CASE == READERS || CASE == WRITERS
static void act(int me) {
    pthread_rwlock_rdlock(&shared[me]);
    (CASE == READERS ? pthread_rwlock_rdlock : pthread_rwlock_wrlock)(&shared[1 - me]);
    pthread_rwlock_unlock(&shared[1 - me]);
    pthread_rwlock_unlock(&shared[me]);
}
#elif CASE == TRIED || CASE == TIMED
static void act(int me) {
    struct timespec deadline = {.tv_sec = 1000};
    if (me == 0) return both(&locks[0], &locks[1]);
    pthread_mutex_lock(&locks[1]);
    int answer = CASE == TRIED ? pthread_mutex_trylock(&locks[0]) : pthread_mutex_timedlock(&locks[0], &deadline);
    if (answer == 0) pthread_mutex_unlock(&locks[0]);
    pthread_mutex_unlock(&locks[1]);
}
#elif CASE == REMADE
static void act(int me) {
    if (me == 1) return both(&locks[1], &locks[0]);
    both(&locks[0], &locks[1]);
    pthread_mutex_destroy(&locks[0]);
    pthread_mutex_init(&locks[0], NULL);
}
#elif CASE == AGAIN
/* The first has the second lock again behind its wait, while it holds the first one. */
static void act(int me) {
    pthread_mutex_lock(&locks[1]);
    if (me == 0) {
        pthread_mutex_lock(&locks[0]);
        sem_post(&turns[1]);
        while (!is_seen) pthread_cond_wait(&condition, &locks[1]);
        pthread_mutex_unlock(&locks[0]);
    } else {
        is_seen = 1;
        pthread_cond_signal(&condition);
    }
    pthread_mutex_unlock(&locks[1]);
    if (me == 1) {
        sem_wait(&turns[1]);
        both(&locks[1], &locks[0]);
    }
}
#elif CASE == READ_GATE
static void act(int me) {
    pthread_rwlock_rdlock(&door);
    both(&locks[me], &locks[1 - me]);
    pthread_rwlock_unlock(&door);
}
#elif CASE == RECURSIVE
static void act(int me) {
    pthread_mutex_lock(&gate);
    pthread_mutex_lock(&locks[0]);
    if (me == 0) {
        pthread_mutex_lock(&gate);
        pthread_mutex_unlock(&gate);
    }
    pthread_mutex_unlock(&locks[0]);
    pthread_mutex_unlock(&gate);
}
#elif CASE == SPUN
static void act(int me) {
    pthread_spin_lock(&spins[me]);
    pthread_spin_lock(&spins[1 - me]);
    pthread_spin_unlock(&spins[1 - me]);
    pthread_spin_unlock(&spins[me]);
}
#elif CASE == ONE_OF_THREE
/* Two of the three hold one gate, so that they can't wait at once. */
static void act(int me) {
    if (me != 1) pthread_mutex_lock(&gate);
    both(&locks[me], &locks[(me + 1) % COUNT]);
    if (me != 1) pthread_mutex_unlock(&gate);
}
#endif

static void *run(void *number) {
    int me = (int)(long)number;
    sem_wait(&turns[me]);
    act(me);
    sem_post(&turns[me + 1]);
    sem_wait(&turns[COUNT]);
    sem_post(&turns[COUNT]);
    return NULL;
}

int main(void) {
    pthread_t threads[COUNT];
    pthread_mutexattr_t kind;
    pthread_mutexattr_init(&kind);
    pthread_mutexattr_settype(&kind, CASE == RECURSIVE ? PTHREAD_MUTEX_RECURSIVE : PTHREAD_MUTEX_NORMAL);
    pthread_mutex_init(&gate, &kind);
    for (int i = 0; i < 2; i++) pthread_spin_init(&spins[i], PTHREAD_PROCESS_PRIVATE);
    for (int i = 0; i < COUNT; i++) pthread_mutex_init(&locks[i], NULL);
    for (int i = 0; i <= COUNT; i++) sem_init(&turns[i], 0, i == 0);
    for (int i = 0; i < COUNT; i++) pthread_create(&threads[i], NULL, run, (void *)(long)i);
    for (int i = 0; i < COUNT; i++) pthread_join(threads[i], NULL);
    puts("done");
    return 0;
}
