#include "solver.h"

/* Marks the literals of a clause: those of the last level are counted, the others go into what is learnt. */
static int mark(solver *of, int clause, int except, int current) {
    const int *literals = of->clauses.items + clause;
    int count = 0;
    for (int i = 1; i <= literals[0]; i++) {
        int literal = literals[i], variable = abs(literal);
        if (literal == except || of->is_seen[variable] || of->level[variable] == 0) continue;
        of->is_seen[variable] = true;
        bump(&of->order, variable);
        if (of->level[variable] == current) count++;
        else push(&of->learnt, literal);
    }
    return count;
}

/* Whether a learnt literal follows from the others: all of its reason's other literals were seen, or hold always. */
static bool is_redundant(const solver *of, int literal) {
    int reason = of->reason[abs(literal)];
    if (reason == NO_CLAUSE) return false;
    const int *literals = of->clauses.items + reason;
    for (int i = 1; i <= literals[0]; i++) {
        int variable = abs(literals[i]);
        if (variable != abs(literal) && !of->is_seen[variable] && of->level[variable] > 0) return false;
    }
    return true;
}

static void drop_redundant(solver *of, vector *dropped) {
    int kept = 1;
    for (int i = 1; i < of->learnt.size; i++) {
        int literal = of->learnt.items[i];
        if (is_redundant(of, literal)) push(dropped, literal);
        else of->learnt.items[kept++] = literal;
    }
    of->learnt.size = kept;
}

/* Puts the literal of the highest level but the first one's in the second place, and answers its level. */
static int second_level(solver *of) {
    int *literals = of->learnt.items, at = 1;
    if (of->learnt.size == 1) return 0;
    for (int i = 2; i < of->learnt.size; i++) {
        if (of->level[abs(literals[i])] > of->level[abs(literals[at])]) at = i;
    }
    int literal = literals[at];
    literals[at] = literals[1];
    literals[1] = literal;
    return of->level[abs(literal)];
}

int analyse(solver *of, int conflict) {
    int current = of->limits.size, open = 0, at = of->trail.size, literal = 0, clause = conflict;
    vector dropped = {NULL, 0, 0};
    of->learnt.size = 0;
    push(&of->learnt, 0);
    do {
        open += mark(of, clause, literal, current);
        do literal = of->trail.items[--at];
        while (!of->is_seen[abs(literal)]);
        clause = of->reason[abs(literal)];
        of->is_seen[abs(literal)] = false;
        open--;
    } while (open > 0);
    of->learnt.items[0] = -literal;

    drop_redundant(of, &dropped);
    for (int i = 1; i < of->learnt.size; i++) of->is_seen[abs(of->learnt.items[i])] = false;
    for (int i = 0; i < dropped.size; i++) of->is_seen[abs(dropped.items[i])] = false;
    release(&dropped);
    return second_level(of);
}
