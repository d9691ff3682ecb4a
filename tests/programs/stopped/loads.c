// A thread that loads and stores four bytes, `cell`, as a word, as halfwords and by the byte. What stands behind a statement says which of
// these bytes it loads, and which it stores to; one without a mark touches none.
#include <pthread.h>
#include <stdint.h>

static volatile union {
    uint32_t word;
    uint16_t half[2];
    uint8_t byte[4];
} cell;
static volatile uint32_t beside = 3, sink;

static void *use(void *unused)
{
    cell.word = 0x01020304; // stores 0-3
    sink = cell.word; // loads 0-3
    sink = cell.half[0]; // loads 0-1
    beside = sink;
    cell.byte[1] = 9; // stores 1-1
    sink = cell.byte[3]; // loads 3-3
    sink = beside;
    cell.half[1] = cell.half[1]; // loads 2-3, stores 2-3
    cell.word = cell.byte[1]; // loads 1-1, stores 0-3
    (void)cell.half[1]; // loads 2-3
    cell.byte[2] = 0; // stores 2-2
    return unused;
}

int main(void)
{
    pthread_t thread;
    pthread_create(&thread, 0, use, 0);
    return pthread_join(thread, 0);
}
