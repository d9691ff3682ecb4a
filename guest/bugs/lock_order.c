/* Two threads lock two mutexes, each in another order: where each has its first, neither gets its second. */
#include <pthread.h>

static pthread_mutex_t left = PTHREAD_MUTEX_INITIALIZER, right = PTHREAD_MUTEX_INITIALIZER;

static void *rightward(void *unused) {
    pthread_mutex_lock(&left);
    pthread_mutex_lock(&right);
    pthread_mutex_unlock(&right);
    pthread_mutex_unlock(&left);
    return unused;
}

static void *leftward(void *unused) {
    pthread_mutex_lock(&right);
    pthread_mutex_lock(&left);
    pthread_mutex_unlock(&left);
    pthread_mutex_unlock(&right);
    return unused;
}

int main(void) {
    pthread_t one, two;
    pthread_create(&one, NULL, rightward, NULL);
    pthread_create(&two, NULL, leftward, NULL);
    pthread_join(one, NULL);
    pthread_join(two, NULL);
    return 0;
}
