/* A failed assertion is told, and ends the process, where the thread is cancelled by what it prints. */
#line 2 "asserted.c" /* whatever the folder is */
#include <assert.h>
#include <pthread.h>

int main(void) {
    pthread_cancel(pthread_self());
    assert(1 + 1 == 3);
    return 0;
}
