#include "solver.h"
#include <string.h>

enum { RESTART = 64, RANDOM_DECISIONS = 50 };

/* --- Values ------------------------------------------------------------------------------------------------------- */

static void assign(solver *of, int literal, int reason) {
    int variable = abs(literal);
    of->value[variable] = literal > 0 ? 1 : -1;
    of->level[variable] = of->limits.size;
    of->reason[variable] = reason;
    push(&of->trail, literal);
}

static void go_back(solver *of, int level) {
    if (of->limits.size <= level) return;
    int begin = of->limits.items[level];
    while (of->trail.size > begin) {
        int variable = abs(pop(&of->trail));
        of->saved[variable] = of->value[variable];
        of->value[variable] = 0;
        insert(&of->order, variable);
    }
    of->limits.size = level;
    of->head = begin;
}

/* --- Clauses ------------------------------------------------------------------------------------------------------ */

static int add_clause(solver *of, const int *literals, int length) {
    int clause = of->clauses.size;
    push(&of->clauses, length);
    for (int i = 0; i < length; i++) push(&of->clauses, literals[i]);
    push(&of->watches[index_of(literals[0])], clause);
    push(&of->watches[index_of(literals[1])], clause);
    return clause;
}

/* Leaves out what is there twice. True: the clause holds always. */
static bool simplify(vector *literals) {
    int kept = 0;
    for (int i = 0; i < literals->size; i++) {
        int literal = literals->items[i];
        bool is_new = true;
        for (int j = 0; j < kept; j++) {
            if (literals->items[j] == -literal) return true;
            if (literals->items[j] == literal) is_new = false;
        }
        if (is_new) literals->items[kept++] = literal;
    }
    literals->size = kept;
    return false;
}

static void add_input(solver *of, vector *literals) {
    if (simplify(literals)) return;
    if (literals->size == 0) {
        of->is_contradictory = true;
    } else if (literals->size > 1) {
        add_clause(of, literals->items, literals->size);
    } else if (value_of(of, literals->items[0]) < 0) {
        of->is_contradictory = true;
    } else if (value_of(of, literals->items[0]) == 0) {
        assign(of, literals->items[0], NO_CLAUSE);
    }
}

/* Looks for another literal of a clause to watch in place of the false one. */
static bool watch_another(solver *of, int clause, int *literals) {
    for (int i = 3; i <= literals[0]; i++) {
        if (value_of(of, literals[i]) < 0) continue;
        int literal = literals[i];
        literals[i] = literals[2];
        literals[2] = literal;
        push(&of->watches[index_of(literal)], clause);
        return true;
    }
    return false;
}

/* What follows from a literal that is false now. Answers a clause that is false, or NO_CLAUSE. */
static int propagate_literal(solver *of, int false_literal) {
    vector *list = &of->watches[index_of(false_literal)];
    int kept = 0, conflict = NO_CLAUSE;
    for (int i = 0; i < list->size; i++) {
        int clause = list->items[i], *literals = of->clauses.items + clause;
        if (literals[1] == false_literal) {
            literals[1] = literals[2];
            literals[2] = false_literal;
        }
        bool is_moved = conflict == NO_CLAUSE && value_of(of, literals[1]) <= 0 && watch_another(of, clause, literals);
        if (is_moved) continue;
        list->items[kept++] = clause;
        if (conflict != NO_CLAUSE || value_of(of, literals[1]) > 0) continue;
        if (value_of(of, literals[1]) < 0) conflict = clause;
        else assign(of, literals[1], clause);
    }
    list->size = kept;
    return conflict;
}

static int propagate(solver *of) {
    while (of->head < of->trail.size) {
        int conflict = propagate_literal(of, -of->trail.items[of->head++]);
        if (conflict != NO_CLAUSE) return conflict;
    }
    return NO_CLAUSE;
}

/* --- Search ------------------------------------------------------------------------------------------------------- */

static uint32_t draw(solver *of) {
    of->chance ^= of->chance << 13;
    of->chance ^= of->chance >> 17;
    of->chance ^= of->chance << 5;
    return of->chance;
}

/* Gives one more variable a value. False: all have one. */
static bool decide(solver *of) {
    while (!is_empty(&of->order)) {
        int variable = take_first(&of->order);
        if (of->value[variable] != 0) continue;
        bool is_positive = of->saved[variable] > 0;
        if (draw(of) % RANDOM_DECISIONS == 0) is_positive = draw(of) & 1;
        push(&of->limits, of->trail.size);
        assign(of, is_positive ? variable : -variable, NO_CLAUSE);
        return true;
    }
    return false;
}

static void learn(solver *of, int conflict) {
    int level = analyse(of, conflict);
    go_back(of, level);
    if (of->learnt.size == 1) assign(of, of->learnt.items[0], NO_CLAUSE);
    else assign(of, of->learnt.items[0], add_clause(of, of->learnt.items, of->learnt.size));
    decay(&of->order);
    of->conflicts++;
}

/* 1, 1, 2, 1, 1, 2, 4, ..: by how much the next restart comes later. */
static long luby(long number) {
    long length = 1, power = 1;
    while (length < number + 1) {
        length = 2 * length + 1;
        power *= 2;
    }
    while (length - 1 != number) {
        length = (length - 1) / 2;
        power /= 2;
        number %= length;
    }
    return power;
}

answer solve(solver *of, const atomic_bool *is_stopped) {
    long restarts = 0, next_restart = RESTART;
    if (of->is_contradictory) return UNSATISFIABLE;
    while (!atomic_load(is_stopped)) {
        int conflict = propagate(of);
        if (conflict != NO_CLAUSE) {
            if (of->limits.size == 0) return UNSATISFIABLE;
            learn(of, conflict);
        } else if (of->conflicts >= next_restart) {
            go_back(of, 0);
            next_restart += RESTART * luby(++restarts);
        } else if (!decide(of)) {
            return SATISFIABLE;
        }
    }
    return UNKNOWN;
}

/* --- The solver's memory ------------------------------------------------------------------------------------------ */

static void *zeros(int count, size_t size) {
    void *block = calloc((size_t)count, size);
    if (!block) abort();
    return block;
}

void make_solver(solver *of, const formula *from, uint32_t seed) {
    int count = from->variables + 1;
    vector literals = {NULL, 0, 0};
    memset(of, 0, sizeof *of);
    of->variables = from->variables;
    of->watches = zeros(2 * count, sizeof *of->watches);
    of->value = zeros(count, sizeof *of->value);
    of->saved = zeros(count, sizeof *of->saved);
    of->level = zeros(count, sizeof *of->level);
    of->reason = zeros(count, sizeof *of->reason);
    of->is_seen = zeros(count, sizeof *of->is_seen);
    of->chance = 2463534242u + seed * 1013904223u;
    make_order(&of->order, from->variables);
    for (int variable = 1; variable < count; variable++) of->saved[variable] = draw(of) & 1 ? 1 : -1;
    for (int i = 0; i < from->literals.size; i++) {
        if (from->literals.items[i] != 0) {
            push(&literals, from->literals.items[i]);
        } else {
            add_input(of, &literals);
            literals.size = 0;
        }
    }
    release(&literals);
}

void free_solver(solver *of) {
    for (int i = 0; i < 2 * (of->variables + 1); i++) release(&of->watches[i]);
    free(of->watches);
    free(of->value);
    free(of->saved);
    free(of->level);
    free(of->reason);
    free(of->is_seen);
    release(&of->clauses);
    release(&of->trail);
    release(&of->limits);
    release(&of->learnt);
    free_order(&of->order);
}
