/*
 * 32 MiB of a guest's memory: four threads write into each page of their part, and each then reads the part of the next one. The words
 * lie at the begin, in the middle and at the end of pages, so also on both sides of each border between two.
 */
#include <pthread.h>
#include <stdint.h>
#include <stdio.h>
#include <stdlib.h>

enum { PAGE = 1024, PAGES = 8 * 1024, THREADS = 4, PART = PAGES / THREADS };  /* a page of 1,024 words */

static const int places[] = {0, 1, 511, 1022, 1023};
static uint32_t (*pages)[PAGE], sums[THREADS];
static pthread_barrier_t written;

static uint32_t drawn(uint32_t number) {
    return number * 1664525u + 1013904223u;
}

static void write_part(int part) {
    for (int page = part * PART; page < (part + 1) * PART; page++) {
        for (unsigned at = 0; at < sizeof places / sizeof *places; at++) pages[page][places[at]] = drawn(page * 8u + at);
    }
}

static uint32_t sum_of_part(int part) {
    uint32_t sum = 0;
    for (int page = part * PART; page < (part + 1) * PART; page++) {
        for (unsigned at = 0; at < sizeof places / sizeof *places; at++) sum = sum * 31u + pages[page][places[at]];
        sum += pages[page][600];  /* nobody wrote it */
    }
    return sum;
}

static void *work(void *number) {
    int part = *(int *)number;
    write_part(part);
    pthread_barrier_wait(&written);
    sums[part] = sum_of_part((part + 1) % THREADS);
    return NULL;
}

int main(void) {
    static int numbers[THREADS] = {0, 1, 2, 3};
    pthread_t threads[THREADS];
    pages = calloc(PAGES, sizeof *pages);
    if (!pages) {
        puts("no memory");
        return 1;
    }
    pthread_barrier_init(&written, NULL, THREADS);
    for (int i = 0; i < THREADS; i++) {
        if (pthread_create(&threads[i], NULL, work, &numbers[i])) abort();
    }
    for (int i = 0; i < THREADS; i++) {
        pthread_join(threads[i], NULL);
        printf("part %d: %08x\n", i, (unsigned)sums[i]);
    }
    free(pages);
    return 0;
}
