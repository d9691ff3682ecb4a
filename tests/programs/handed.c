/*
 * No data race, though the kit's locks put nothing in an order: what a thread gets of the heap, and the stack that it stands on, had
 * other owners before; semaphores, atomic objects of any size, a routine that is called once, a held stream, creation and join do order.
 */
#include <pthread.h>
#include <sched.h>
#include <semaphore.h>
#include <stdatomic.h>
#include <stdint.h>
#include <stdio.h>
#include <stdlib.h>
#include <string.h>

enum { THREADS = 3, ROUNDS = 6 };

struct wide {
    uint32_t words[4];
};

static int once_made, held, posted, by_double, by_wide, total;
static pthread_once_t once = PTHREAD_ONCE_INIT;
static sem_t semaphore, gone;
static _Atomic uint64_t double_flag;
static _Atomic struct wide wide_flag;

static void fill(char *block, size_t bytes, int byte) {
    for (size_t i = 0; i < bytes; i++) block[i] = (char)byte;
}

/* Blocks of all sizes, which are cut, joined, grown and given to another thread. */
static void use_heap(int seed) {
    for (int round = 0; round < ROUNDS; round++) {
        size_t bytes = (size_t)(8 + (seed * 7 + round * 13) % 90);
        char *small = malloc(bytes), *zeros = calloc(bytes, 2), *aligned = aligned_alloc(32, 64);
        fill(small, bytes, seed);
        fill(zeros, 2 * bytes, seed);
        fill(aligned, 64, seed);
        small = realloc(small, bytes * 3);
        fill(small, bytes * 3, seed + 1);
        small = realloc(small, bytes / 2);
        char *other = strdup("a copy");
        fill(other, 6, seed);
        free(zeros);
        free(other);
        free(aligned);
        free(small);
    }
}

static void make(void) { once_made = 1; }

static void *short_lived(void *it) {
    char local[200];
    fill(local, sizeof local, 1);
    use_heap(local[3]);
    return it;
}

static void *detached(void *it) {
    use_heap(9);
    sem_post(&gone);
    return it;
}

/* On stacks that others stood on. */
static void make_threads(void) {
    pthread_t id, other;
    pthread_create(&id, NULL, short_lived, NULL);
    pthread_create(&other, NULL, detached, NULL);
    pthread_join(id, NULL);
    pthread_detach(other);
    sem_wait(&gone);
}

static void hold(void) {
    flockfile(stdout);
    held++;
    printf("%d\n", held);
    funlockfile(stdout);
}

static void *tell(void *it) {
    use_heap(1);
    posted = 1;
    sem_post(&semaphore);
    by_double = 1;
    atomic_store(&double_flag, UINT64_C(1) << 40);
    by_wide = 1;
    atomic_store(&wide_flag, ((struct wide){{1, 2, 3, 4}}));
    make_threads();
    hold();
    return it;
}

static void *hear(void *it) {
    use_heap(2);
    sem_wait(&semaphore);
    total += posted;
    while (atomic_load(&double_flag) == 0) sched_yield();
    total += by_double;
    while (atomic_load(&wide_flag).words[3] == 0) sched_yield();
    total += by_wide;
    pthread_once(&once, make);
    total += once_made;
    hold();
    make_threads();
    return it;
}

static void *make_too(void *it) {
    pthread_once(&once, make);
    int made = once_made;
    hold();
    use_heap(3 + made);
    make_threads();
    return it;
}

int main(void) {
    void *(*const starts[THREADS])(void *) = {tell, hear, make_too};
    pthread_t threads[THREADS];
    sem_init(&semaphore, 0, 0);
    sem_init(&gone, 0, 0);
    for (int i = 0; i < THREADS; i++) pthread_create(&threads[i], NULL, starts[i], NULL);
    for (int i = 0; i < THREADS; i++) pthread_join(threads[i], NULL);
    printf("%d %d\n", total, held);
    return total == 4 && held == THREADS ? 0 : 1;
}
