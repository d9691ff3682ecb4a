/* Threads on stacks of the program's own, one after the other on the same, and policies that change nothing. */
#define _GNU_SOURCE
#include <errno.h>
#include <pthread.h>
#include <sched.h>
#include <semaphore.h>
#include <stdint.h>
#include <stdio.h>
#include <string.h>

enum { BYTES = 65536, THREADS = 2, ROUNDS = 6 };

static char stacks[THREADS][BYTES] __attribute__((aligned(4096)));
static sem_t ended;

static const char *name_of(int error) {
    switch (error) {
    case 0: return "0";
    case EINVAL: return "EINVAL";
    default: return "another";
    }
}

static void say(const char *what, int error) { printf("%-24s %s\n", what, name_of(error)); }

/* Whether the thread stands on the stack that it was given, all of it, and its attributes say so. */
static int is_on(char *stack) {
    pthread_attr_t attributes;
    void *begin;
    size_t bytes;
    char here, room[BYTES / 2];
    memset(room, 1, sizeof room);
    if (pthread_getattr_np(pthread_self(), &attributes) != 0) return 0;
    pthread_attr_getstack(&attributes, &begin, &bytes);
    pthread_attr_destroy(&attributes);
    return &here > stack && &here < stack + BYTES && room[BYTES / 4] == 1 && begin == stack && bytes == BYTES;
}

static void *joined(void *stack) { return (void *)(intptr_t)is_on(stack); }

static void *detached(void *stack) {
    if (!is_on(stack)) printf("on another stack\n");
    sem_post(&ended);
    return NULL;
}

static void policies(void) {
    struct sched_param none = {0}, some = {7};
    int policy = -1;
    say("set", pthread_setschedparam(pthread_self(), SCHED_OTHER, &none));
    say("get", pthread_getschedparam(pthread_self(), &policy, &some));
    printf("the usual one %d, priority %d\n", policy == SCHED_OTHER, some.sched_priority);
    some.sched_priority = 7;
    say("a priority", pthread_setschedparam(pthread_self(), SCHED_OTHER, &some));
    say("no policy", pthread_setschedparam(pthread_self(), 1000, &none));
    say("set the priority", pthread_setschedprio(pthread_self(), 0));
    printf("from %d to %d", sched_get_priority_min(SCHED_OTHER), sched_get_priority_max(SCHED_OTHER));
    printf(", of none %d\n", sched_get_priority_max(1000));
}

int main(void) {
    pthread_attr_t attributes;
    void *begin, *result;
    size_t bytes;
    int sum = 0;
    sem_init(&ended, 0, 0);
    pthread_attr_init(&attributes);
    say("too small", pthread_attr_setstack(&attributes, stacks[0], 16));
    for (int i = 0; i < ROUNDS; i++) {
        pthread_t ids[THREADS];
        for (int j = 0; j < THREADS; j++) {
            if (pthread_attr_setstack(&attributes, stacks[j], BYTES)) printf("no stack\n");
            pthread_attr_getstack(&attributes, &begin, &bytes);
            if (begin != stacks[j] || bytes != BYTES) printf("another stack\n");
            if (pthread_create(&ids[j], &attributes, joined, stacks[j])) printf("no thread\n");
        }
        for (int j = 0; j < THREADS; j++) {
            pthread_join(ids[j], &result);
            sum += (int)(intptr_t)result;
        }
    }
    printf("%d of %d on their stacks\n", sum, THREADS * ROUNDS);
    pthread_attr_setdetachstate(&attributes, PTHREAD_CREATE_DETACHED);
    for (int j = 0; j < THREADS; j++) {
        pthread_t id;
        pthread_attr_setstack(&attributes, stacks[j], BYTES);
        pthread_create(&id, &attributes, detached, stacks[j]);
    }
    for (int j = 0; j < THREADS; j++) sem_wait(&ended);
    policies();
    return 0;
}
