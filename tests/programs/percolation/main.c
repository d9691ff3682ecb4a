/* A Monte Carlo simulation: workers take trials from a queue, and each trial has a random stream of its own. */
#include "grid.h"
#include "queue.h"
#include "statistics.h"
#include <errno.h>
#include <math.h>
#include <stdio.h>
#include <stdlib.h>
#include <string.h>

enum { WORKERS = 4, TRIALS = 24, SIZE = 12, MOST_TRIALS = 100000, MOST_SIZE = 1000, SEED = 20260101 };

typedef struct {
    queue jobs;
    int size;
    double *thresholds; /* the share of open sites, by trial */
    bool has_failed;
    pthread_mutex_t mutex;
} simulation;

static void *work(void *argument) {
    simulation *of = argument;
    for (int job; take_job(&of->jobs, &job);) {
        random_stream chance = random_stream_of(SEED, (uint64_t)job);
        int opened = sites_until_flow(of->size, &chance);
        of->thresholds[job] = opened / ((double)of->size * of->size);
        pthread_mutex_lock(&of->mutex);
        of->has_failed |= opened < 0;
        pthread_mutex_unlock(&of->mutex);
    }
    return NULL;
}

static void run(simulation *of, int trials) {
    pthread_t workers[WORKERS];
    open_queue(&of->jobs);
    for (int i = 0; i < WORKERS; i++) {
        int error = pthread_create(&workers[i], NULL, work, of);
        if (error) {
            fprintf(stderr, "percolation: worker %d: %s\n", i, strerror(error));
            exit(1);
        }
    }
    for (int trial = 0; trial < trials; trial++) put_job(&of->jobs, trial);
    close_queue(&of->jobs);
    for (int i = 0; i < WORKERS; i++) pthread_join(workers[i], NULL);
    destroy_queue(&of->jobs);
}

static void report(const simulation *of, int trials) {
    summary result = summary_of(of->thresholds, trials);
    printf("%d trials on a grid of %d by %d\n", trials, of->size, of->size);
    printf("flow begins where %.6f of the sites are open, between %.4f and %.4f\n", result.mean, result.least, result.most);
    printf("deviation %.6f, error of the mean %.6f\n", result.deviation, result.deviation / sqrt(trials));
}

/* A number from 1 on; ends the program where the text is none. */
static int number_of(const char *text, long most) {
    char *end;
    errno = 0;
    long number = strtol(text, &end, 10);
    if (errno || end == text || *end || number < 1 || number > most) {
        fprintf(stderr, "percolation: %s is no number from 1 to %ld\n", text, most);
        exit(2);
    }
    return (int)number;
}

int main(int count, char **arguments) {
    int trials = count > 1 ? number_of(arguments[1], MOST_TRIALS) : TRIALS;
    simulation of = {.size = count > 2 ? number_of(arguments[2], MOST_SIZE) : SIZE, .mutex = PTHREAD_MUTEX_INITIALIZER};
    of.thresholds = malloc((size_t)trials * sizeof *of.thresholds);
    if (!of.thresholds) {
        fprintf(stderr, "percolation: no memory for %d trials\n", trials);
        return 1;
    }
    run(&of, trials);
    if (!of.has_failed) report(&of, trials);
    free(of.thresholds);
    return of.has_failed;
}
