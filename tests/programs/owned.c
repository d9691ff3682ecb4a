/* Planted races in a block of the heap: of a thread that holds two locks with one that holds none, and of a thread in the C library. */
#include <pthread.h>
#include <stdlib.h>
#include <string.h>

struct owned {
    int count;
    char text[32];
};

static pthread_mutex_t lock = PTHREAD_MUTEX_INITIALIZER;
static pthread_rwlock_t guard = PTHREAD_RWLOCK_INITIALIZER;
static volatile int seen;

static struct owned *make(void) {
    return calloc(1, sizeof(struct owned));
}

__attribute__((noinline)) static void bump(struct owned *it) {
    it->count++;
}

static void *under_locks(void *it) {
    pthread_mutex_lock(&lock);
    pthread_rwlock_rdlock(&guard);
    bump(it);
    pthread_rwlock_unlock(&guard);
    pthread_mutex_unlock(&lock);
    return NULL;
}

static void *without(void *it) {
    bump(it);
    pthread_rwlock_wrlock(&guard);
    memset(((struct owned *)it)->text, 1, sizeof(((struct owned *)it)->text));
    pthread_rwlock_unlock(&guard);
    return NULL;
}

static void *reads(void *it) {
    seen = ((struct owned *)it)->text[3];
    return NULL;
}

int main(void) {
    struct owned *it = make();
    pthread_t threads[3];
    pthread_create(&threads[0], NULL, under_locks, it);
    pthread_create(&threads[1], NULL, without, it);
    pthread_create(&threads[2], NULL, reads, it);
    for (int i = 0; i < 3; i++) pthread_join(threads[i], NULL);
    return 0;
}
