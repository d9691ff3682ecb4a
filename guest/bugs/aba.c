/* A list from which threads take nodes by comparing its head alone: a head that went and came back hides that its next one is gone. */
#include <pthread.h>
#include <stdatomic.h>
#include <stddef.h>
#include <stdlib.h>

enum { NODES = 3, ROUNDS = 100 };

struct node {
    struct node *next;
    atomic_int owners;
};

static struct node nodes[NODES];
static _Atomic(struct node *) head;

static struct node *take(void) {
    struct node *first = atomic_load(&head);
    while (first != NULL && !atomic_compare_exchange_strong(&head, &first, first->next)) {}
    if (first != NULL && atomic_fetch_add(&first->owners, 1) != 0) exit(1);
    return first;
}

static void push(struct node *node) {
    struct node *first = atomic_load(&head);
    do node->next = first;
    while (!atomic_compare_exchange_strong(&head, &first, node));
}

static void give(struct node *node) {
    if (node == NULL) return;
    atomic_fetch_sub(&node->owners, 1);
    push(node);
}

static void *worker(void *unused) {
    for (int round = 0; round < ROUNDS; round++) {
        struct node *one = take(), *two = take();
        give(one);
        give(two);
    }
    return unused;
}

int main(void) {
    pthread_t other;
    for (int i = 0; i < NODES; i++) push(&nodes[i]);
    pthread_create(&other, NULL, worker, NULL);
    worker(NULL);
    pthread_join(other, NULL);
    return 0;
}
