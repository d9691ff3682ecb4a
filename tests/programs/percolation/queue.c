#include "queue.h"

void open_queue(queue *of) {
    pthread_mutex_init(&of->mutex, NULL);
    pthread_cond_init(&of->has_job, NULL);
    pthread_cond_init(&of->has_room, NULL);
    of->first = of->count = 0;
    of->is_closed = false;
}

void close_queue(queue *of) {
    pthread_mutex_lock(&of->mutex);
    of->is_closed = true;
    pthread_cond_broadcast(&of->has_job);
    pthread_mutex_unlock(&of->mutex);
}

void destroy_queue(queue *of) {
    pthread_cond_destroy(&of->has_room);
    pthread_cond_destroy(&of->has_job);
    pthread_mutex_destroy(&of->mutex);
}

void put_job(queue *of, int job) {
    pthread_mutex_lock(&of->mutex);
    while (of->count == ROOM) pthread_cond_wait(&of->has_room, &of->mutex);
    of->jobs[(of->first + of->count++) % ROOM] = job;
    pthread_cond_signal(&of->has_job);
    pthread_mutex_unlock(&of->mutex);
}

bool take_job(queue *of, int *job) {
    pthread_mutex_lock(&of->mutex);
    while (of->count == 0 && !of->is_closed) pthread_cond_wait(&of->has_job, &of->mutex);
    bool is_taken = of->count > 0;
    if (is_taken) {
        *job = of->jobs[of->first];
        of->first = (of->first + 1) % ROOM;
        of->count--;
        pthread_cond_signal(&of->has_room);
    }
    pthread_mutex_unlock(&of->mutex);
    return is_taken;
}
