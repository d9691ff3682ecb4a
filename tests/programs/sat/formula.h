/* A formula in conjunctive normal form: clauses of literals, as the DIMACS format has them. */
#ifndef FORMULA_H
#define FORMULA_H

#include "vector.h"
#include <stdbool.h>
#include <stdio.h>

typedef struct {
    int variables, clauses;
    vector literals; /* of all clauses, each with a 0 behind it */
} formula;

/* Reads a formula. False: the text is none, and `line` is where. */
bool read_formula(FILE *file, formula *read, int *line);

/* Whether each clause has a literal that the model makes true. The model has a sign for each variable from 1 on. */
bool is_model(const formula *of, const signed char *model);

#endif
