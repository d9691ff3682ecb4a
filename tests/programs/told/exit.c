/* A thread ends the process, while another one waits for work. */
#include <pthread.h>
#include <stddef.h>
#include <stdlib.h>

static pthread_mutex_t lock = PTHREAD_MUTEX_INITIALIZER;
static pthread_cond_t work = PTHREAD_COND_INITIALIZER;
static volatile int looked;

static void *wait_for_work(void *unused) {
    pthread_setname_np(pthread_self(), "worker");
    pthread_mutex_lock(&lock);
    pthread_cond_wait(&work, &lock); /* waits for work */
    pthread_mutex_unlock(&lock);
    return unused;
}

static void *give_up(void *unused) {
    pthread_setname_np(pthread_self(), "quitter");
    while (looked < 100) looked++;
    exit(3); /* gives up */
    return unused;
}

int main(void) {
    pthread_t threads[2];
    pthread_create(&threads[0], NULL, wait_for_work, NULL); /* creates the worker */
    pthread_create(&threads[1], NULL, give_up, NULL); /* creates the quitter */
    pthread_join(threads[0], NULL); /* joins the worker */
    return 0;
}
