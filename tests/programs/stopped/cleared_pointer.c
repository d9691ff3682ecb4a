// A thread stores through a pointer that another one clears meanwhile.
#include <pthread.h>
#include <stddef.h>

enum { ROUNDS = 1000 };

static int target;
static int *volatile where = &target;

static __attribute__((noinline)) void store(int value) {
    *where = value;
}

static __attribute__((noinline)) void clear(void) {
    where = NULL;
}

static void *use(void *unused) {
    for (int i = 0; i < ROUNDS; i++)
        store(i);
    return unused;
}

static void *finish(void *unused) {
    for (volatile int i = 0; i < ROUNDS / 10; i++) {}
    clear();
    return unused;
}

int main(void) {
    pthread_t user, finisher;
    pthread_create(&user, NULL, use, NULL);
    pthread_create(&finisher, NULL, finish, NULL);
    pthread_join(user, NULL);
    pthread_join(finisher, NULL);
    return 0;
}
