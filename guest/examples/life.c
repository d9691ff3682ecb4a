/* Conway's game of life on a torus: each thread works out a band of rows, and a barrier ends each generation. */
#include <pthread.h>
#include <stdint.h>
#include <stdio.h>
#include <string.h>

enum { ROWS = 16, COLUMNS = 32, THREADS = 4, GENERATIONS = 24, SHOWN_EACH = 8 };

typedef char grid[ROWS][COLUMNS];

static grid cells, next;
static pthread_barrier_t barrier;

static int neighbours(int row, int column) {
    int count = -cells[row][column];
    for (int down = ROWS - 1; down <= ROWS + 1; down++) {
        for (int right = COLUMNS - 1; right <= COLUMNS + 1; right++) {
            count += cells[(row + down) % ROWS][(column + right) % COLUMNS];
        }
    }
    return count;
}

static void show(int generation) {
    printf("generation %d\n", generation);
    for (int row = 0; row < ROWS; row++) {
        char line[COLUMNS + 1] = "";
        for (int column = 0; column < COLUMNS; column++) line[column] = cells[row][column] ? 'O' : '.';
        puts(line);
    }
}

static void *work(void *band) {
    int from = (int)(intptr_t)band * ROWS / THREADS, to = from + ROWS / THREADS;
    for (int generation = 1; generation <= GENERATIONS; generation++) {
        for (int row = from; row < to; row++) {
            for (int column = 0; column < COLUMNS; column++) {
                int count = neighbours(row, column);
                next[row][column] = count == 3 || (count == 2 && cells[row][column]);
            }
        }
        /* The thread that comes last is told so: it alone goes over to the new generation, while the others wait. */
        if (pthread_barrier_wait(&barrier) == PTHREAD_BARRIER_SERIAL_THREAD) {
            memcpy(cells, next, sizeof cells);
            if (generation % SHOWN_EACH == 0) show(generation);
        }
        pthread_barrier_wait(&barrier);
    }
    return NULL;
}

int main(void) {
    static const char begin[3][4] = {".OO", "OO.", ".O."};
    for (int row = 0; row < 3; row++) {
        for (int column = 0; column < 3; column++) cells[6 + row][14 + column] = begin[row][column] == 'O';
    }
    show(0);
    pthread_t threads[THREADS];
    pthread_barrier_init(&barrier, NULL, THREADS);
    for (int i = 0; i < THREADS; i++) pthread_create(&threads[i], NULL, work, (void *)(intptr_t)i);
    for (int i = 0; i < THREADS; i++) pthread_join(threads[i], NULL);
    pthread_barrier_destroy(&barrier);
    return 0;
}
