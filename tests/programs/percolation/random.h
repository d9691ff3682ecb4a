/* Random numbers, a stream for each job: so results don't depend on who does what. */
#ifndef RANDOM_H
#define RANDOM_H

#include <stdint.h>

typedef struct {
    uint64_t state, stream;
} random_stream;

random_stream random_stream_of(uint64_t seed, uint64_t number);
uint32_t next_random(random_stream *from);

/* A number below the limit, each as likely as any other. */
uint32_t random_below(random_stream *from, uint32_t limit);

#endif
