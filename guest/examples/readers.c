/* Readers and writers: writers move money between accounts, readers add the accounts up, and the sum never changes. */
#include <pthread.h>
#include <stdint.h>
#include <stdio.h>

enum { ACCOUNTS = 8, EACH = 1000, WRITERS = 2, READERS = 4, TRANSFERS = 30, LOOKS = 30 };

static pthread_rwlock_t lock = PTHREAD_RWLOCK_INITIALIZER;
static int accounts[ACCOUNTS], transfers;

static int sum(void) {
    int total = 0;
    for (int i = 0; i < ACCOUNTS; i++) total += accounts[i];
    return total;
}

static void *writer(void *number) {
    unsigned chance = 1 + (unsigned)(intptr_t)number;
    for (int i = 0; i < TRANSFERS; i++) {
        chance = chance * 1103515245 + 12345;
        int from = chance >> 8 & (ACCOUNTS - 1), to = chance >> 16 & (ACCOUNTS - 1), amount = chance >> 24 & 127;
        pthread_rwlock_wrlock(&lock);
        accounts[from] -= amount;
        accounts[to] += amount;
        transfers++;
        pthread_rwlock_unlock(&lock);
    }
    return NULL;
}

/* Answers how often the sum was wrong. */
static void *reader(void *unused) {
    (void)unused;
    intptr_t wrong = 0;
    for (int i = 0; i < LOOKS; i++) {
        pthread_rwlock_rdlock(&lock);
        if (sum() != ACCOUNTS * EACH) wrong++;
        pthread_rwlock_unlock(&lock);
    }
    return (void *)wrong;
}

int main(void) {
    pthread_t readers[READERS], writers[WRITERS];
    for (int i = 0; i < ACCOUNTS; i++) accounts[i] = EACH;
    for (int i = 0; i < READERS; i++) pthread_create(&readers[i], NULL, reader, NULL);
    for (int i = 0; i < WRITERS; i++) pthread_create(&writers[i], NULL, writer, (void *)(intptr_t)i);
    for (int i = 0; i < WRITERS; i++) pthread_join(writers[i], NULL);
    for (int i = 0; i < READERS; i++) {
        void *wrong;
        pthread_join(readers[i], &wrong);
        printf("reader %d saw %d wrong sums\n", i, (int)(intptr_t)wrong);
    }
    printf("after %d transfers:", transfers);
    for (int i = 0; i < ACCOUNTS; i++) printf(" %d", accounts[i]);
    printf(", together %d\n", sum());
    return 0;
}
