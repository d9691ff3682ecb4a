/* Three workers with uneven shares of one computation, who put what they find into one table under one lock. */
#include <pthread.h>
#include <stdint.h>
#include <stdio.h>

#define WORKERS 3
#define ROWS 120
#define WIDTH 6

static pthread_mutex_t table_lock = PTHREAD_MUTEX_INITIALIZER;
static uint32_t table[ROWS];
static int next_row;

/* The hot function: a division for each step of a chain. */
__attribute__((noinline)) static uint32_t chain(uint32_t start, int length)
{
    uint32_t x = start + 1;
    for (int i = 0; i < length; i++)
        x = x * 2654435761u + 4000000000u / (x % 977 + 1);
    return x;
}

/* It holds the lock while it looks for a row that is equal, the longer, the fuller the table is. */
__attribute__((noinline)) static void keep(uint32_t value)
{
    pthread_mutex_lock(&table_lock);
    int i = 0;
    while (i < next_row && table[i] != value)
        i++;
    if (i == next_row)
        table[next_row++] = value;
    pthread_mutex_unlock(&table_lock);
}

static void *worker(void *which)
{
    int number = (int)(intptr_t)which;
    int rows = number == 0 ? ROWS / 2 : ROWS / 4; /* the first has half of all */
    for (int i = 0; i < rows; i++)
        keep(chain((uint32_t)(number * ROWS + i), WIDTH));
    return NULL;
}

int main(void)
{
    pthread_t threads[WORKERS];
    uint32_t sum = 0;
    for (int i = 0; i < WORKERS; i++)
        pthread_create(&threads[i], NULL, worker, (void *)(intptr_t)i);
    for (int i = 0; i < WORKERS; i++)
        pthread_join(threads[i], NULL);
    for (int i = 0; i < next_row; i++)
        sum += table[i];
    printf("%d rows, %lu\n", next_row, (unsigned long)sum);
    return 0;
}
