/* The heap under many threads: blocks keep what was written to them, and all of it is free again in the end. */
#include <pthread.h>
#include <stdint.h>
#include <stdio.h>
#include <stdlib.h>
#include <string.h>

enum { THREADS = 5, ROUNDS = 120, BLOCKS = 6, LARGEST = 600 };

static int is_filled(const unsigned char *block, size_t size, int byte) {
    for (size_t i = 0; i < size; i++) {
        if (block[i] != byte) return 0;
    }
    return 1;
}

static void *work(void *number) {
    unsigned chance = 17 + (unsigned)(intptr_t)number;
    unsigned char *blocks[BLOCKS] = {NULL};
    size_t sizes[BLOCKS] = {0};
    intptr_t wrong = 0;
    for (int i = 0; i < ROUNDS; i++) {
        chance = chance * 1103515245 + 12345;
        int place = (int)(chance >> 16) % BLOCKS, byte = (int)(intptr_t)number * BLOCKS + place;
        if (!is_filled(blocks[place], sizes[place], byte)) wrong++;
        size_t size = chance >> 8 & 1 ? 0 : 1 + (chance >> 20) % LARGEST;
        if (size == 0) {
            free(blocks[place]);
            blocks[place] = NULL;
        } else {
            unsigned char *grown = realloc(blocks[place], size);
            if (!grown || !is_filled(grown, size < sizes[place] ? size : sizes[place], byte)) wrong++;
            blocks[place] = grown;
            memset(grown, byte, size);
        }
        sizes[place] = size;
    }
    for (int i = 0; i < BLOCKS; i++) free(blocks[i]);
    return (void *)wrong;
}

int main(void) {
    pthread_t threads[THREADS];
    for (int i = 0; i < THREADS; i++) pthread_create(&threads[i], NULL, work, (void *)(intptr_t)(i + 1));
    for (int i = 0; i < THREADS; i++) {
        void *wrong;
        pthread_join(threads[i], &wrong);
        printf("thread %d: %d wrong\n", i, (int)(intptr_t)wrong);
    }
    void *large = malloc(100000);
    puts(large ? "a large block can be had" : "no room for a large block");
    free(large);
    return 0;
}
