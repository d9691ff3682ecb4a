/* What may be written with the initialisers, and mutexes that have a type by one. */
#define _GNU_SOURCE
#include <errno.h>
#include <pthread.h>
#include <stdio.h>
#include <stdlib.h>
#include <time.h>

struct shared {
    pthread_once_t once;
    pthread_mutex_t mutex;
    pthread_cond_t condition;
    pthread_rwlock_t lock;
};

static struct shared first = {PTHREAD_ONCE_INIT, PTHREAD_MUTEX_INITIALIZER, PTHREAD_COND_INITIALIZER,
                              PTHREAD_RWLOCK_INITIALIZER};
static pthread_mutex_t recursive = PTHREAD_RECURSIVE_MUTEX_INITIALIZER_NP;
static pthread_mutex_t many[] = {PTHREAD_ERRORCHECK_MUTEX_INITIALIZER_NP, PTHREAD_ADAPTIVE_MUTEX_INITIALIZER_NP,
                                 PTHREAD_RECURSIVE_MUTEX_INITIALIZER_NP};
static int calls, sum, cleaned;

static const char *name_of(int error) {
    return error == 0 ? "0" : error == EBUSY ? "EBUSY" : error == EDEADLK ? "EDEADLK" : error == EPERM ? "EPERM" : "another";
}

static void say(const char *what, int error) { printf("%s: %s\n", what, name_of(error)); }

static void count(void) { calls++; }

static void assigned(void) {
    struct shared *second = malloc(sizeof *second);
    second->once = PTHREAD_ONCE_INIT;
    second->mutex = (pthread_mutex_t)PTHREAD_MUTEX_INITIALIZER;
    second->condition = (pthread_cond_t)PTHREAD_COND_INITIALIZER;
    second->lock = (pthread_rwlock_t)PTHREAD_RWLOCK_INITIALIZER;
    pthread_once(&first.once, count);
    pthread_once(&first.once, count);
    pthread_once(&second->once, count);
    second->once = (pthread_once_t)PTHREAD_ONCE_INIT;
    pthread_once(&second->once, count);
    printf("%d calls\n", calls);
    say("lock", pthread_mutex_lock(&second->mutex));
    say("trylock", pthread_mutex_trylock(&second->mutex));
    say("unlock", pthread_mutex_unlock(&second->mutex));
    say("signal", pthread_cond_signal(&second->condition));
    say("read", pthread_rwlock_rdlock(&second->lock));
    say("unlock", pthread_rwlock_unlock(&second->lock));
    free(second);
}

/* Three threads come at once to a mutex that has no type yet. */
static void *add(void *unused) {
    for (int i = 0; i < 20; i++) {
        pthread_mutex_lock(&recursive);
        pthread_mutex_lock(&recursive);
        sum++;
        pthread_mutex_unlock(&recursive);
        pthread_mutex_unlock(&recursive);
    }
    return unused;
}

static void at_once(void) {
    pthread_t ids[3];
    for (int i = 0; i < 3; i++) pthread_create(&ids[i], NULL, add, NULL);
    for (int i = 0; i < 3; i++) pthread_join(ids[i], NULL);
    printf("the sum is %d\n", sum);
    say("trylock, recursive", pthread_mutex_trylock(&recursive));
    say("trylock again, recursive", pthread_mutex_trylock(&recursive));
    say("unlock", pthread_mutex_unlock(&recursive));
    say("unlock", pthread_mutex_unlock(&recursive));
    say("unlock, once too often", pthread_mutex_unlock(&recursive));
}

static void types(void) {
    struct timespec past = {0, 0};
    say("trylock, error checking", pthread_mutex_trylock(&many[0]));
    say("lock again, error checking", pthread_mutex_lock(&many[0]));
    say("unlock", pthread_mutex_unlock(&many[0]));
    say("unlock, once too often", pthread_mutex_unlock(&many[0]));
    say("lock, adaptive", pthread_mutex_lock(&many[1]));
    say("trylock again, adaptive", pthread_mutex_trylock(&many[1]));
    say("timed lock, recursive", pthread_mutex_timedlock(&many[2], &past));
    say("lock again, recursive", pthread_mutex_lock(&many[2]));
    say("unlock", pthread_mutex_unlock(&many[2]));
    say("unlock", pthread_mutex_unlock(&many[2]));
    say("destroy", pthread_mutex_destroy(&many[2]));
    many[2] = (pthread_mutex_t)PTHREAD_ERRORCHECK_MUTEX_INITIALIZER_NP;
    say("lock, now error checking", pthread_mutex_lock(&many[2]));
    say("lock again, now error checking", pthread_mutex_lock(&many[2]));
}

/* A mutex that was never locked, and is made anew, is of the new type. */
static void made_anew(void) {
    pthread_mutex_t mutex = PTHREAD_RECURSIVE_MUTEX_INITIALIZER_NP;
    say("destroy", pthread_mutex_destroy(&mutex));
    say("init", pthread_mutex_init(&mutex, NULL));
    say("lock", pthread_mutex_lock(&mutex));
    say("trylock, normal", pthread_mutex_trylock(&mutex));
    say("unlock", pthread_mutex_unlock(&mutex));
}

static void clean(void *value) { cleaned += *(int *)value; }

static void handlers(void) {
    int one = 1, two = 2;
    pthread_cleanup_push(clean, &one)
    pthread_cleanup_push(clean, &two);
    pthread_cleanup_pop(1);
    pthread_cleanup_pop(1);
    printf("cleaned %d\n", cleaned);
}

int main(void) {
    assigned();
    at_once();
    types();
    made_anew();
    handlers();
    return 0;
}
