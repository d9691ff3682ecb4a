/* A queue of jobs, with room for some: who puts waits for room, who takes waits for a job. */
#ifndef QUEUE_H
#define QUEUE_H

#include <pthread.h>
#include <stdbool.h>

enum { ROOM = 4 };

typedef struct {
    pthread_mutex_t mutex;
    pthread_cond_t has_job, has_room;
    int jobs[ROOM], first, count;
    bool is_closed;
} queue;

void open_queue(queue *of);
void close_queue(queue *of);   /* no job comes any more */
void destroy_queue(queue *of);

void put_job(queue *of, int job);
bool take_job(queue *of, int *job); /* false: the queue is closed, and empty */

#endif
