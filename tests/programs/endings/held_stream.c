/* A thread that holds a stream isn't cancelled by what it prints; once it has given the stream up it is. */
#include <pthread.h>
#include <stdio.h>

static void *prints(void *unused) {
    pthread_cancel(pthread_self());
    flockfile(stdout);
    flockfile(stderr);
    printf("who holds the stream ");
    fputs("prints ", stderr);
    funlockfile(stderr);
    puts("on");
    funlockfile(stdout);
    puts("never printed");
    return unused;
}

int main(void) {
    pthread_t id;
    void *value;
    pthread_create(&id, NULL, prints, NULL);
    pthread_join(id, &value);
    puts(value == PTHREAD_CANCELED ? "cancelled" : "ended");
    return 0;
}
