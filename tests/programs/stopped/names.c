/* Two threads that get names, and a third that has none, until it is told its own. */
#include <pthread.h>
#include <stdio.h>

enum { ROUNDS = 50 };

static pthread_mutex_t lock = PTHREAD_MUTEX_INITIALIZER;
static int sum;

static void *work(void *name) {
    if (name) pthread_setname_np(pthread_self(), name);
    for (int i = 0; i < ROUNDS; i++) {
        pthread_mutex_lock(&lock);
        sum += i;
        pthread_mutex_unlock(&lock);
    }
    return NULL;
}

static void ended(void) { printf("%d\n", sum); }

int main(void) {
    pthread_t threads[3];
    char *names[] = {"reader", "writer", NULL};
    for (int i = 0; i < 3; i++) pthread_create(&threads[i], NULL, work, names[i]);
    pthread_setname_np(threads[2], "told");
    for (int i = 0; i < 3; i++) pthread_join(threads[i], NULL);
    pthread_setname_np(pthread_self(), "first");
    ended();
    return 0;
}
