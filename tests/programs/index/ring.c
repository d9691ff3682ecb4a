#include "ring.h"

void ring_init(struct ring *ring) {
    sem_init(&ring->filled, 0, 0);
    sem_init(&ring->empty, 0, RING_ROOM);
    pthread_spin_init(&ring->lock, PTHREAD_PROCESS_PRIVATE);
    ring->first = ring->last = 0;
}

void ring_destroy(struct ring *ring) {
    pthread_spin_destroy(&ring->lock);
    sem_destroy(&ring->empty);
    sem_destroy(&ring->filled);
}

static void wait_for(sem_t *semaphore) {
    while (sem_wait(semaphore) != 0) continue;
}

void ring_put(struct ring *ring, struct line line) {
    wait_for(&ring->empty);
    pthread_spin_lock(&ring->lock);
    ring->lines[ring->last++ % RING_ROOM] = line;
    pthread_spin_unlock(&ring->lock);
    sem_post(&ring->filled);
}

struct line ring_take(struct ring *ring) {
    wait_for(&ring->filled);
    pthread_spin_lock(&ring->lock);
    struct line line = ring->lines[ring->first++ % RING_ROOM];
    pthread_spin_unlock(&ring->lock);
    sem_post(&ring->empty);
    return line;
}
