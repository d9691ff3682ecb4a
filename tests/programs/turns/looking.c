/* As many threads as the first argument says look again and again whether they are to stop, and sleep between two looks. One more thread,
   which is begun last, stops them. */
#include <pthread.h>
#include <stdio.h>
#include <stdlib.h>
#include <unistd.h>

enum { MOST = 62 };

static volatile int stopped;

static void *look(void *unused) {
    (void)unused;
    while (!stopped) usleep(100);
    return NULL;
}

static void *stop(void *unused) {
    (void)unused;
    stopped = 1;
    return NULL;
}

int main(int count, char **words) {
    int lookers = count > 1 ? atoi(words[1]) : 3;
    pthread_t threads[MOST + 1];
    if (lookers > MOST) return 1;
    for (int thread = 0; thread < lookers; thread++) pthread_create(&threads[thread], NULL, look, NULL);
    pthread_create(&threads[lookers], NULL, stop, NULL);
    for (int thread = 0; thread <= lookers; thread++) pthread_join(threads[thread], NULL);
    puts("stopped");
    return 0;
}
