/* A detached thread lends a variable of its stack: once it has ended, the next thread's stack is written over it. */
#include <pthread.h>
#include <stddef.h>

enum { VALUE = 42 };

static pthread_mutex_t mutex = PTHREAD_MUTEX_INITIALIZER;
static pthread_cond_t is_lent = PTHREAD_COND_INITIALIZER;
static volatile int *lent;

static void *lender(void *unused) {
    volatile int value = VALUE;
    pthread_mutex_lock(&mutex);
    lent = &value;
    pthread_cond_signal(&is_lent);
    pthread_mutex_unlock(&mutex);
    for (volatile int step = 0; step < 500; step = step + 1) {}
    return unused;
}

static void fill(volatile int *words, int count) {
    for (int i = 0; i < count; i++) words[i] = -1;
}

static void *writer(void *unused) {
    volatile int words[64];
    fill(words, 64);
    return unused;
}

int main(void) {
    pthread_t first, second;
    pthread_create(&first, NULL, lender, NULL);
    pthread_detach(first);
    pthread_mutex_lock(&mutex);
    while (lent == NULL) pthread_cond_wait(&is_lent, &mutex);
    pthread_mutex_unlock(&mutex);
    pthread_create(&second, NULL, writer, NULL);
    pthread_join(second, NULL);
    return *lent != VALUE;
}
