// Two threads take two locks in opposite orders, again and again, until neither can go on.
#include <pthread.h>
#include <stdio.h>

enum { MEALS = 50 };

static pthread_mutex_t left = PTHREAD_MUTEX_INITIALIZER, right = PTHREAD_MUTEX_INITIALIZER;
static int meals;

static void eat(pthread_mutex_t *first, pthread_mutex_t *second) {
    pthread_mutex_lock(first);
    pthread_mutex_lock(second);
    meals++;
    pthread_mutex_unlock(second);
    pthread_mutex_unlock(first);
}

static void *from_left(void *unused) {
    for (int i = 0; i < MEALS; i++)
        eat(&left, &right);
    return unused;
}

static void *from_right(void *unused) {
    for (int i = 0; i < MEALS; i++)
        eat(&right, &left);
    return unused;
}

int main(void) {
    pthread_t one, other;
    pthread_create(&one, NULL, from_left, NULL);
    pthread_create(&other, NULL, from_right, NULL);
    pthread_join(one, NULL);
    pthread_join(other, NULL);
    printf("%d meals\n", meals);
    return 0;
}
