/*
 * Data races between calls of the kit, which take its locks: no program may rely on who printed before another, or who took memory,
 * so these put nothing in an order.
 */
#define _GNU_SOURCE
#include <pthread.h>
#include <stdio.h>
#include <stdlib.h>

#define SAME_TEXT 0x0A656E6F /* so that each line of the output is the same, in any order */

static volatile int printed, allotted, named;
static union {
    char text[8];
    volatile unsigned whole;
} shown = {"one\n"};
static pthread_barrier_t barrier;

static void take_memory(void) { free(malloc(24)); }

static void *first(void *it) {
    char name[16];
    pthread_barrier_wait(&barrier);
    puts("one");
    printed = 1;
    puts("one");
    take_memory();
    allotted = 1;
    take_memory();
    pthread_getname_np(pthread_self(), name, sizeof name);
    named = 1;
    pthread_getname_np(pthread_self(), name, sizeof name);
    shown.whole = SAME_TEXT;
    return it;
}

static void *second(void *it) {
    char name[16];
    pthread_barrier_wait(&barrier);
    puts("one");
    printed = 2;
    puts("one");
    take_memory();
    allotted = 2;
    take_memory();
    pthread_getname_np(pthread_self(), name, sizeof name);
    named = 2;
    pthread_getname_np(pthread_self(), name, sizeof name);
    fputs(shown.text, stdout);
    return it;
}

int main(void) {
    pthread_t threads[2];
    pthread_barrier_init(&barrier, NULL, 2);
    pthread_create(&threads[0], NULL, first, NULL);
    pthread_create(&threads[1], NULL, second, NULL);
    pthread_join(threads[0], NULL);
    pthread_join(threads[1], NULL);
    return 0;
}
