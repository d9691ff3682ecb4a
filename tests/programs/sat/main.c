/* Solvers with different seeds work on one formula side by side; the first answer stops the others. */
#include "solver.h"
#include <pthread.h>
#include <string.h>

enum { MOST_THREADS = 16 };

typedef struct {
    const formula *formula;
    uint32_t seed;
} task;

static atomic_bool is_stopped;
static pthread_mutex_t mutex = PTHREAD_MUTEX_INITIALIZER;
static answer found = UNKNOWN;
static signed char *model;

/* The first answer counts. A model is kept before the solver is freed. */
static void tell(answer result, const solver *of) {
    pthread_mutex_lock(&mutex);
    if (found == UNKNOWN && result != UNKNOWN) {
        found = result;
        if (result == SATISFIABLE) memcpy(model, of->value, (size_t)of->variables + 1);
        atomic_store(&is_stopped, true);
    }
    pthread_mutex_unlock(&mutex);
}

static void *work(void *argument) {
    const task *given = argument;
    solver own;
    make_solver(&own, given->formula, given->seed);
    tell(solve(&own, &is_stopped), &own);
    free_solver(&own);
    return NULL;
}

static int search(const formula *read, int threads) {
    pthread_t ids[MOST_THREADS];
    task tasks[MOST_THREADS];
    int made = 0;
    for (; made < threads; made++) {
        tasks[made] = (task){read, (uint32_t)made};
        if (pthread_create(&ids[made], NULL, work, &tasks[made]) != 0) break;
    }
    if (made == 0) {
        fprintf(stderr, "sat: no thread can be made\n");
        return 1;
    }
    for (int i = 0; i < made; i++) pthread_join(ids[i], NULL);
    printf("s %s\n", found == SATISFIABLE ? "SATISFIABLE" : "UNSATISFIABLE");
    if (found == SATISFIABLE) printf("c the model is %s\n", is_model(read, model) ? "right" : "wrong");
    return 0;
}

int main(int count, char **arguments) {
    int threads = 2, line;
    formula read;
    for (int i = 1; i < count; i++) {
        if (strcmp(arguments[i], "-t") == 0 && i + 1 < count) {
            threads = atoi(arguments[++i]);
        } else {
            fprintf(stderr, "usage: sat [-t THREADS] < FORMULA.cnf\n");
            return 2;
        }
    }
    if (threads < 1 || threads > MOST_THREADS) threads = 1;
    if (!read_formula(stdin, &read, &line)) {
        fprintf(stderr, "sat: line %d is no clause in the DIMACS format\n", line);
        return 1;
    }
    printf("c %d variables, %d clauses, %d threads\n", read.variables, read.clauses, threads);
    model = malloc((size_t)read.variables + 1);
    int status = model ? search(&read, threads) : 1;
    free(model);
    release(&read.literals);
    return status;
}
