/* Two threads take two locks in opposite orders. */
#include <pthread.h>
#include <stddef.h>

static pthread_mutex_t left = PTHREAD_MUTEX_INITIALIZER, right = PTHREAD_MUTEX_INITIALIZER;
static int meals;

static void *from_left(void *unused) {
    pthread_setname_np(pthread_self(), "lefty");
    for (int count = 0; count < 100; count++) {
        pthread_mutex_lock(&left);
        pthread_mutex_lock(&right); /* waits for the right */
        meals++;
        pthread_mutex_unlock(&right);
        pthread_mutex_unlock(&left);
    }
    return unused;
}

static void *from_right(void *unused) {
    pthread_setname_np(pthread_self(), "righty");
    for (int count = 0; count < 100; count++) {
        pthread_mutex_lock(&right);
        pthread_mutex_lock(&left); /* waits for the left */
        meals++;
        pthread_mutex_unlock(&left);
        pthread_mutex_unlock(&right);
    }
    return unused;
}

int main(void) {
    pthread_t threads[2];
    pthread_create(&threads[0], NULL, from_left, NULL); /* creates the lefty */
    pthread_create(&threads[1], NULL, from_right, NULL); /* creates the righty */
    pthread_join(threads[0], NULL); /* joins the lefty */
    pthread_join(threads[1], NULL);
    return meals != 200;
}
