/* A stack for which there is no room, and how large the usual one is. */
#include <errno.h>
#include <pthread.h>
#include <stdio.h>

static void *thread(void *unused) { return unused; }

int main(void) {
    pthread_t other;
    pthread_attr_t attributes;
    size_t usual;
    pthread_attr_init(&attributes);
    pthread_attr_getstacksize(&attributes, &usual);
    printf("%d\n", (int)usual);
    pthread_attr_setstacksize(&attributes, 100000000);
    printf("%s\n", pthread_create(&other, &attributes, thread, NULL) == EAGAIN ? "EAGAIN" : "another");
    return 3;
}
