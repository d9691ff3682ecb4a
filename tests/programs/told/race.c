/* A lost update: two threads count in one variable, and only one of them takes the lock. */
#include <pthread.h>
#include <stddef.h>
#include <stdio.h>

static pthread_mutex_t lock = PTHREAD_MUTEX_INITIALIZER;
static int total;

static void *careful(void *unused) {
    pthread_setname_np(pthread_self(), "careful");
    for (int count = 0; count < 300; count++) {
        pthread_mutex_lock(&lock); /* locks */
        total++; /* counts with the lock */
        pthread_mutex_unlock(&lock); /* unlocks */
    }
    return unused;
}

static void *careless(void *unused) {
    pthread_setname_np(pthread_self(), "careless");
    for (int count = 0; count < 300; count++) {
        int found = *(volatile int *)&total; /* loads without it */
        *(volatile int *)&total = found + 1; /* stores without it */
    }
    return unused;
}

int main(void) {
    pthread_t threads[2];
    pthread_create(&threads[0], NULL, careful, NULL); /* creates the careful */
    pthread_create(&threads[1], NULL, careless, NULL); /* creates the careless */
    pthread_join(threads[0], NULL); /* joins the careful */
    pthread_join(threads[1], NULL); /* joins the careless */
    printf("%d of 600\n", total);
    return total != 600;
}
