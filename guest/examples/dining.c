/* Dining philosophers: five of them share five forks, and each eats with the two beside it. */
#include <pthread.h>
#include <stdint.h>
#include <stdio.h>

enum { PHILOSOPHERS = 5, MEALS = 20 };

static pthread_mutex_t forks[PHILOSOPHERS];
static int uses[PHILOSOPHERS]; /* of each fork, which its mutex guards */

/* Everybody takes the fork of lower number first: so no circle of waiting philosophers can close. */
static void eat(int left, int right) {
    int first = left < right ? left : right, second = left < right ? right : left;
    pthread_mutex_lock(&forks[first]);
    pthread_mutex_lock(&forks[second]);
    uses[first]++;
    uses[second]++;
    pthread_mutex_unlock(&forks[second]);
    pthread_mutex_unlock(&forks[first]);
}

static void *philosopher(void *place) {
    int left = (int)(intptr_t)place, meals = 0;
    while (meals < MEALS) {
        eat(left, (left + 1) % PHILOSOPHERS);
        meals++;
    }
    return (void *)(intptr_t)meals;
}

int main(void) {
    pthread_t threads[PHILOSOPHERS];
    for (int i = 0; i < PHILOSOPHERS; i++) pthread_mutex_init(&forks[i], NULL);
    for (int i = 0; i < PHILOSOPHERS; i++) pthread_create(&threads[i], NULL, philosopher, (void *)(intptr_t)i);
    for (int i = 0; i < PHILOSOPHERS; i++) {
        void *meals;
        pthread_join(threads[i], &meals);
        printf("philosopher %d has eaten %d times\n", i, (int)(intptr_t)meals);
    }
    for (int i = 0; i < PHILOSOPHERS; i++) {
        printf("fork %d was used %d times\n", i, uses[i]);
        pthread_mutex_destroy(&forks[i]);
    }
    return 0;
}
