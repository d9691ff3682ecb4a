/* 64 threads, as many as a program has at once. The first and 62 others hand a token round for ever: each waits at its own condition, and
   signals that of the next one. The last thread stops them. */
#include <pthread.h>
#include <stdint.h>
#include <stdio.h>

enum { MEMBERS = 63 };

static pthread_mutex_t mutex = PTHREAD_MUTEX_INITIALIZER;
static pthread_cond_t handed[MEMBERS];
static int holder, stopped;

static void *hand_on(void *number) {
    int own = (int)(intptr_t)number;
    pthread_mutex_lock(&mutex);
    while (!stopped) {
        while (holder != own && !stopped) pthread_cond_wait(&handed[own], &mutex);
        holder = (own + 1) % MEMBERS;
        pthread_cond_signal(&handed[holder]);
    }
    pthread_mutex_unlock(&mutex);
    return NULL;
}

static void *stop(void *unused) {
    (void)unused;
    pthread_mutex_lock(&mutex);
    stopped = 1;
    for (int member = 0; member < MEMBERS; member++) pthread_cond_signal(&handed[member]);
    pthread_mutex_unlock(&mutex);
    return NULL;
}

int main(void) {
    pthread_t members[MEMBERS], last;
    for (int member = 0; member < MEMBERS; member++) pthread_cond_init(&handed[member], NULL);
    for (int member = 1; member < MEMBERS; member++) pthread_create(&members[member], NULL, hand_on, (void *)(intptr_t)member);
    pthread_create(&last, NULL, stop, NULL);
    hand_on((void *)0);
    for (int member = 1; member < MEMBERS; member++) pthread_join(members[member], NULL);
    pthread_join(last, NULL);
    puts("stopped");
    return 0;
}
