/*
 * Threads that are cancelled within freopen leave no lock behind; and the program ends while others open and close streams: what
 * waits in those that are open goes out, by whatever turns.
 */
#include "telling.h"
#include <pthread.h>
#include <stdlib.h>
#include <unistd.h>

enum { CANCELLED = 12, THREADS = 3 };

static FILE *shared;

static void *reopen_for_ever(void *unused) {
    while (freopen("shared", "a", shared)) {
    }
    return unused;
}

static void cancel_some(void) {
    pthread_t thread;
    void *end;
    int count = 0;
    shared = fopen("shared", "a");
    for (int i = 0; i < CANCELLED; i++) {
        pthread_create(&thread, NULL, reopen_for_ever, NULL);
        for (int turn = 0; turn < 3; turn++) usleep(1000);
        pthread_cancel(thread);
        pthread_join(thread, &end);
        count += end == PTHREAD_CANCELED;
        flockfile(shared);
        fprintf(shared, "line %d\n", i);
        funlockfile(shared);
    }
    TELL(count);
    TELL(fclose(shared));
}

static void *open_for_ever(void *name) {
    FILE *file;
    while ((file = fopen(name, "w"))) {
        fputs("some text\n", file);
        fclose(file);
    }
    return NULL;
}

int main(void) {
    static const char *const names[THREADS] = {"one", "two", "three"};
    pthread_t threads[THREADS];
    FILE *waiting = fopen("waiting", "w");
    cancel_some();
    for (int i = 0; i < THREADS; i++) pthread_create(&threads[i], NULL, open_for_ever, (void *)names[i]);
    fputs("it goes out at the end\n", waiting);
    usleep(20000);
    exit(3);
}
