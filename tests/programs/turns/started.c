/* The first thread begins another and looks again and again whether that has started. Between two looks it sleeps. */
#include <pthread.h>
#include <stdio.h>
#include <unistd.h>

static volatile int started;

/* A name that no section of the kit may share. */
static void *start(void *unused) {
    (void)unused;
    started = 1;
    return NULL;
}

int main(void) {
    pthread_t thread;
    pthread_create(&thread, NULL, start, NULL);
    while (!started) usleep(100);
    pthread_join(thread, NULL);
    puts("started");
    return 0;
}
