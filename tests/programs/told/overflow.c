/* A thread calls itself for ever, and waits for a lock at each call. */
#include <pthread.h>
#include <stddef.h>
#include <stdlib.h>

static pthread_mutex_t lock = PTHREAD_MUTEX_INITIALIZER;
static int depth;

__attribute__((noinline)) static int dig(int below) {
    volatile int room[64];
    room[0] = below;
    if (room[0] == 0) return 0;
    pthread_mutex_lock(&lock); /* finds no stack */
    depth++;
    pthread_mutex_unlock(&lock);
    return dig(below + 1) + room[0]; /* digs deeper */
}

static void *digger(void *unused) {
    pthread_setname_np(pthread_self(), "digger");
    dig(1); /* begins */
    return unused;
}

int main(void) {
    pthread_t thread;
    pthread_create(&thread, NULL, digger, NULL); /* creates the digger */
    pthread_join(thread, NULL); /* joins the digger */
    return 0;
}
