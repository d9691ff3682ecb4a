/* A planted data race between two threads: one cancels the other, which never acts on that and ends by itself. What its clean-up handler does
   isn't behind what the first one did. The kit's own functions take a lock at the end of a thread, so this one ends by bare calls. */
#include <pthread.h>
#include <stdint.h>
#include <stdio.h>

enum { CLOCK = 4, SLEEP_UNTIL = 5, JOIN = 11, EXIT = 13, SELF = 14, CANCEL = 60, SET_STATE = 62, CLEANUP_PUSH = 64 };

static pthread_barrier_t barrier;
static volatile uint32_t number; /* of the thread that is cancelled */
static volatile int shared;

/* A call of the runtime, by its number. */
static uint32_t call(uint32_t what, uint32_t first, uint32_t second) {
    register uint32_t x10 __asm__("a0") = first;
    register uint32_t x11 __asm__("a1") = second;
    register uint32_t x17 __asm__("a7") = what;
    __asm__ volatile("ecall" : "+r"(x10), "+r"(x11) : "r"(x17) : "memory");
    return x10;
}

static void *first(void *unused) {
    (void)unused;
    pthread_barrier_wait(&barrier);
    shared = 1;
    call(CANCEL, number, 0);
    return NULL;
}

static void clean_up(void *unused) {
    (void)unused;
    shared = 2;
}

static void *second(void *unused) {
    (void)unused;
    number = call(SELF, 0, 0);
    call(SET_STATE, PTHREAD_CANCEL_DISABLE, 0);
    pthread_barrier_wait(&barrier);
    call(SLEEP_UNTIL, call(CLOCK, 0, 0) + 2, 0);
    call(CLEANUP_PUSH, (uint32_t)(uintptr_t)clean_up, 0);
    call(EXIT, 7, 0);
    return NULL;
}

int main(void) {
    pthread_t threads[2];
    pthread_barrier_init(&barrier, NULL, 2);
    pthread_create(&threads[0], NULL, first, NULL);
    pthread_create(&threads[1], NULL, second, NULL);
    pthread_join(threads[0], NULL);
    call(JOIN, number, 0);
    printf("%d\n", shared > 0);
    return 0;
}
