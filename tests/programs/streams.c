/* What one call prints stands together, and so does what is printed between flockfile and funlockfile. */
#include <pthread.h>
#include <stdint.h>
#include <stdio.h>

enum { THREADS = 6, LINES = 8 };

static void *work(void *number) {
    int own = (int)(intptr_t)number;
    for (int i = 0; i < LINES; i++) {
        printf("thread %d, line %d, %s and %.2f\n", own, i, "a word", own + i / 8.0);
        flockfile(stdout);
        fputs("thread ", stdout);
        putchar('0' + own);
        fwrite(", in", 1, 4, stdout);
        puts(" pieces");
        funlockfile(stdout);
    }
    return NULL;
}

int main(void) {
    pthread_t threads[THREADS];
    for (int i = 0; i < THREADS; i++) pthread_create(&threads[i], NULL, work, (void *)(intptr_t)i);
    for (int i = 0; i < THREADS; i++) pthread_join(threads[i], NULL);
    return 0;
}
