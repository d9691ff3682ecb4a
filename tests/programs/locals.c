/* What is each thread's own: errno and thread-local variables, initialised or not, of any alignment. */
#include <errno.h>
#include <pthread.h>
#include <stdint.h>
#include <stdio.h>

enum { THREADS = 6, ROUNDS = 40 };

static _Thread_local int begins_with_seven = 7;
static _Thread_local int begins_with_zero;
static _Alignas(64) _Thread_local char aligned[3] = "ab";

static pthread_barrier_t barrier;

static void *work(void *number) {
    int own = (int)(intptr_t)number, wrong = 0;
    if (begins_with_seven != 7 || begins_with_zero != 0 || aligned[1] != 'b' || (uintptr_t)aligned % 64) wrong++;
    for (int i = 0; i < ROUNDS; i++) {
        errno = own;
        begins_with_seven = begins_with_zero = own + i;
        pthread_barrier_wait(&barrier);
        if (errno != own || begins_with_seven != own + i || begins_with_zero != own + i) wrong++;
    }
    return (void *)(intptr_t)wrong;
}

int main(void) {
    pthread_t threads[THREADS];
    pthread_barrier_init(&barrier, NULL, THREADS);
    for (int i = 0; i < THREADS; i++) pthread_create(&threads[i], NULL, work, (void *)(intptr_t)(100 * i));
    for (int i = 0; i < THREADS; i++) {
        void *wrong;
        pthread_join(threads[i], &wrong);
        printf("thread %d: %d wrong\n", i, (int)(intptr_t)wrong);
    }
    printf("first thread: %d %d %s, errno %d\n", begins_with_seven, begins_with_zero, aligned, errno);
    return 0;
}
