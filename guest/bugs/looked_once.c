/* A thread looks once, and not in a loop, at what it waits for: a wait that ends spuriously lets it go on too early. It is
   built with -spurious. */
#include <pthread.h>
#include <stdbool.h>

static pthread_mutex_t mutex = PTHREAD_MUTEX_INITIALIZER;
static pthread_cond_t filled = PTHREAD_COND_INITIALIZER;
static bool is_there;
static int item, taken;

static void *taker(void *unused) {
    pthread_mutex_lock(&mutex);
    if (!is_there) pthread_cond_wait(&filled, &mutex);
    taken = item;
    pthread_mutex_unlock(&mutex);
    return unused;
}

static void *giver(void *unused) {
    for (volatile int step = 0; step < 200; step = step + 1) {}
    pthread_mutex_lock(&mutex);
    item = 42;
    is_there = true;
    pthread_cond_signal(&filled);
    pthread_mutex_unlock(&mutex);
    return unused;
}

int main(void) {
    pthread_t one, two;
    pthread_create(&one, NULL, taker, NULL);
    pthread_create(&two, NULL, giver, NULL);
    pthread_join(one, NULL);
    pthread_join(two, NULL);
    return taken == 42 ? 0 : 1;
}
