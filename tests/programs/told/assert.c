/* Two tellers book into one account without a lock, and an auditor finds that bookings are missing. */
#include <assert.h>
#include <pthread.h>
#include <stddef.h>

static int balance;

static void *book(void *unused) {
    pthread_setname_np(pthread_self(), "teller");
    for (int count = 0; count < 3000; count++) {
        int found = balance; /* loads */
        *(volatile int *)&balance = found + 1; /* stores */
    }
    return unused;
}

static void *audit(void *tellers) {
    pthread_setname_np(pthread_self(), "auditor");
    pthread_join(((pthread_t *)tellers)[0], NULL); /* joins the first teller */
    pthread_join(((pthread_t *)tellers)[1], NULL); /* joins the second teller */
    assert(balance == 6000); /* fails */
    return NULL;
}

int main(void) {
    pthread_t tellers[2], auditor;
    pthread_create(&tellers[0], NULL, book, NULL); /* creates a teller */
    pthread_create(&tellers[1], NULL, book, NULL); /* creates another */
    pthread_create(&auditor, NULL, audit, tellers); /* creates the auditor */
    pthread_join(auditor, NULL); /* joins the auditor */
    return 0;
}
