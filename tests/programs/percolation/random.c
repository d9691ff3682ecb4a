#include "random.h"

/* O'Neill's generator PCG XSH RR 64/32. */
uint32_t next_random(random_stream *from) {
    uint64_t old = from->state;
    from->state = old * UINT64_C(6364136223846793005) + from->stream;
    uint32_t mixed = (uint32_t)(((old >> 18) ^ old) >> 27), turn = (uint32_t)(old >> 59);
    return mixed >> turn | mixed << (-turn & 31);
}

random_stream random_stream_of(uint64_t seed, uint64_t number) {
    random_stream made = {0, number << 1 | 1};
    next_random(&made);
    made.state += seed;
    next_random(&made);
    return made;
}

uint32_t random_below(random_stream *from, uint32_t limit) {
    uint32_t least = -limit % limit, drawn;
    do drawn = next_random(from);
    while (drawn < least);
    return drawn % limit;
}
