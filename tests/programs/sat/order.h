/* The order in which variables are decided: a heap by how active they were in the last conflicts. */
#ifndef ORDER_H
#define ORDER_H

#include "vector.h"
#include <stdbool.h>

typedef struct {
    vector heap;
    int *place;       /* of a variable in the heap, or -1 */
    double *activity;
    double increment;
} order;

void make_order(order *of, int variables);
void free_order(order *of);

bool is_empty(const order *of);
int take_first(order *of);
void insert(order *of, int variable);

/* The variable took part in a conflict. */
void bump(order *of, int variable);

/* What was active counts for less from now on. */
void decay(order *of);

#endif
