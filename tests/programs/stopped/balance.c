// Two clerks book into one balance. One of them takes no lock, so a booking is lost wherever it reads before the other one writes.
#include <pthread.h>
#include <stdio.h>

enum { BOOKINGS = 300 };

static pthread_mutex_t lock = PTHREAD_MUTEX_INITIALIZER;
static volatile int balance;

static __attribute__((noinline)) void book(int amount) {
    int before = balance;
    balance = before + amount;
}

static void *careful(void *unused) {
    for (int i = 0; i < BOOKINGS; i++) {
        pthread_mutex_lock(&lock);
        book(1);
        pthread_mutex_unlock(&lock);
    }
    return unused;
}

static void *careless(void *unused) {
    for (int i = 0; i < BOOKINGS; i++)
        book(1);
    return unused;
}

int main(void) {
    pthread_t one, other;
    pthread_create(&one, NULL, careful, NULL);
    pthread_create(&other, NULL, careless, NULL);
    pthread_join(one, NULL);
    pthread_join(other, NULL);
    printf("balance %d of %d\n", balance, 2 * BOOKINGS);
    return balance != 2 * BOOKINGS;
}
