/* Lines on their way from the reader to the workers: a ring with two semaphores and a spin lock. */
#ifndef RING_H
#define RING_H

#include <pthread.h>
#include <semaphore.h>

#define RING_ROOM 8

struct line {
    char *text; /* NULL: there are no more lines */
    int number;
};

struct ring {
    sem_t filled, empty;
    pthread_spinlock_t lock;
    struct line lines[RING_ROOM];
    unsigned first, last;
};

void ring_init(struct ring *ring);
void ring_destroy(struct ring *ring);
void ring_put(struct ring *ring, struct line line);
struct line ring_take(struct ring *ring);

#endif
