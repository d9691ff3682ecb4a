/* A thread stores through a pointer that another one clears meanwhile. */
#include <pthread.h>
#include <stddef.h>

static int target;
static int *volatile where = &target;

static void *store(void *unused) {
    pthread_setname_np(pthread_self(), "storer");
    for (int count = 0; count < 2000; count++) {
        int *found = where; /* loads */
        *(volatile int *)found = count; /* faults */
    }
    return unused;
}

static void *clear(void *unused) {
    pthread_setname_np(pthread_self(), "clearer");
    where = NULL; /* clears */
    return unused;
}

int main(void) {
    pthread_t threads[2];
    pthread_create(&threads[0], NULL, store, NULL); /* creates the storer */
    pthread_create(&threads[1], NULL, clear, NULL); /* creates the clearer */
    pthread_join(threads[0], NULL); /* joins the storer */
    pthread_join(threads[1], NULL); /* joins the clearer */
    return 0;
}
