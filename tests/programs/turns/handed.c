/* Two threads hand the turn to and fro for ever: each waits at a condition for its own. A third one stops them. */
#include <pthread.h>
#include <stdint.h>
#include <stdio.h>

static pthread_mutex_t mutex = PTHREAD_MUTEX_INITIALIZER;
static pthread_cond_t changed = PTHREAD_COND_INITIALIZER;
static int turn, stopped;

static void *hand_over(void *number) {
    int own = (int)(intptr_t)number;
    pthread_mutex_lock(&mutex);
    while (!stopped) {
        while (turn != own && !stopped) pthread_cond_wait(&changed, &mutex);
        turn = !own;
        pthread_cond_broadcast(&changed);
    }
    pthread_mutex_unlock(&mutex);
    return NULL;
}

static void *stop(void *unused) {
    (void)unused;
    pthread_mutex_lock(&mutex);
    stopped = 1;
    pthread_cond_broadcast(&changed);
    pthread_mutex_unlock(&mutex);
    return NULL;
}

int main(void) {
    pthread_t threads[3];
    pthread_create(&threads[0], NULL, hand_over, (void *)0);
    pthread_create(&threads[1], NULL, hand_over, (void *)1);
    pthread_create(&threads[2], NULL, stop, NULL);
    for (int thread = 0; thread < 3; thread++) pthread_join(threads[thread], NULL);
    puts("stopped");
    return 0;
}
