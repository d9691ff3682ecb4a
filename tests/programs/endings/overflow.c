/* A stack overflows, in one of several ways, over a neighbour in memory. */
#include <pthread.h>
#include <stdint.h>
#include <stdio.h>
#include <stdlib.h>
#include <string.h>

static __attribute__((noinline)) int deep(int depth) {
    volatile char frame[64];
    frame[depth % 64] = (char)depth;
    return depth == 0 ? 0 : deep(depth - 1) + frame[depth % 64];
}

static __attribute__((noinline)) int wide(void) {
    volatile char frame[20000];
    memset((char *)frame, 1, sizeof frame);
    return frame[100];
}

static __attribute__((noinline)) int wide_call(void) {
    volatile char frame[20000];
    frame[0] = 1;
    puts("seen before this is printed");
    return frame[0];
}

static __attribute__((noinline)) int recursion(void) { return deep(220); }

static int overflow(void) { return WAY(); }

static void *thread(void *unused) {
    (void)unused;
    int result = overflow();
    if (IN_MALLOC) free(malloc(10));
    return (void *)(intptr_t)result;
}

int main(void) {
    pthread_t other;
    char *neighbour = malloc(60000);
    printf("begin\n");
    if (IN_MAIN) return overflow() == 77;
    if (!neighbour || pthread_create(&other, NULL, thread, NULL) != 0) return 1;
    pthread_join(other, NULL);
    printf("never printed\n");
    return 0;
}
