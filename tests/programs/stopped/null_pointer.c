// A thread stores through a null pointer.
#include <pthread.h>
#include <stddef.h>

static int *volatile where;

static __attribute__((noinline)) void store(int value) {
    *where = value;
}

static void *use(void *unused) {
    store(7);
    return unused;
}

int main(void) {
    pthread_t user;
    pthread_create(&user, NULL, use, NULL);
    pthread_join(user, NULL);
    return 0;
}
