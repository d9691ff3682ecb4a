/* A solver that learns from conflicts, with two watched literals a clause. */
#ifndef SOLVER_H
#define SOLVER_H

#include "formula.h"
#include "order.h"
#include <stdatomic.h>
#include <stdint.h>

typedef enum { UNKNOWN, SATISFIABLE, UNSATISFIABLE } answer;

enum { NO_CLAUSE = -1 };

typedef struct {
    int variables;
    vector clauses;        /* of each clause its length, then its literals; the first two are watched */
    vector *watches;       /* for each literal, the clauses that watch it */
    signed char *value;    /* of each variable: 1, -1, or 0 where it has none */
    signed char *saved;    /* the value that it had last */
    int *level, *reason;   /* of each variable that has a value; the reason is a clause */
    bool *is_seen;
    vector trail, limits;  /* literals in the order of their values; where each level begins */
    int head;              /* the literals of the trail before it have been propagated */
    order order;
    vector learnt;
    uint32_t chance;
    long conflicts;
    bool is_contradictory;
} solver;

void make_solver(solver *of, const formula *from, uint32_t seed);
void free_solver(solver *of);

/* UNKNOWN where `is_stopped` was set meanwhile. */
answer solve(solver *of, const atomic_bool *is_stopped);

/* --- Parts of the solver ------------------------------------------------------------------------------------------ */

static inline int index_of(int literal) { return literal > 0 ? 2 * literal : -2 * literal + 1; }

static inline int value_of(const solver *of, int literal) {
    return literal > 0 ? of->value[literal] : -of->value[-literal];
}

/* Learns a clause from a conflict: fills `learnt`, the literal to make true first, and answers the level to go back to. */
int analyse(solver *of, int conflict);

#endif
