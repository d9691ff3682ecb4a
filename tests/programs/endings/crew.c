/* THREADS threads at once, each with its usual stack, in a program with BYTES bytes of variables. Nothing else takes memory from the heap. */
#include <pthread.h>
#include <unistd.h>

static pthread_barrier_t all;
static volatile char variables[BYTES];
static _Thread_local volatile char own[OWN];

static void *work(void *unused) {
    own[OWN - 1] = 1;
    pthread_barrier_wait(&all);
    return unused;
}

int main(void) {
    static pthread_t threads[THREADS];
    variables[BYTES - 1] = 1;
    pthread_barrier_init(&all, NULL, THREADS);
    for (int i = 0; i < THREADS; i++) {
        if (pthread_create(&threads[i], NULL, work, NULL) != 0) {
            write(1, "too few\n", 8);
            return 1;
        }
    }
    for (int i = 0; i < THREADS; i++) pthread_join(threads[i], NULL);
    write(1, "all\n", 4);
    return 0;
}
