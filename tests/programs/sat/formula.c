#include "formula.h"
#include <ctype.h>
#include <string.h>

typedef struct {
    FILE *file;
    int line, next;
} reader;

static void advance(reader *from) {
    if (from->next == '\n') from->line++;
    from->next = getc(from->file);
}

static void skip_line(reader *from) {
    while (from->next != EOF && from->next != '\n') advance(from);
}

static void skip_blanks(reader *from) {
    while (isspace(from->next)) advance(from);
}

/* False: no number stands here. */
static bool read_number(reader *from, int *number) {
    bool is_negative = false;
    skip_blanks(from);
    if (from->next == '-') {
        is_negative = true;
        advance(from);
    }
    if (!isdigit(from->next)) return false;
    for (*number = 0; isdigit(from->next); advance(from)) {
        if (*number > 10000000) return false;
        *number = 10 * *number + (from->next - '0');
    }
    if (is_negative) *number = -*number;
    return true;
}

/* The line `p cnf VARIABLES CLAUSES`, of which the p has been seen. */
static bool read_header(reader *from, formula *read) {
    advance(from);
    skip_blanks(from);
    for (const char *letter = "cnf"; *letter; letter++) {
        if (from->next != *letter) return false;
        advance(from);
    }
    return read_number(from, &read->variables) && read->variables >= 0 && read_number(from, &read->clauses);
}

static bool read_clause(reader *from, formula *read) {
    for (int literal;;) {
        if (!read_number(from, &literal) || abs(literal) > read->variables) return false;
        push(&read->literals, literal);
        if (literal == 0) return true;
    }
}

bool read_formula(FILE *file, formula *read, int *line) {
    reader from = {file, 1, ' '};
    bool is_right = true, has_header = false;
    memset(read, 0, sizeof *read);
    for (int clauses = 0; is_right && !(has_header && clauses == read->clauses);) {
        skip_blanks(&from);
        if (from.next == 'c') {
            skip_line(&from);
        } else if (from.next == 'p' && !has_header) {
            is_right = has_header = read_header(&from, read);
        } else {
            is_right = has_header && read_clause(&from, read);
            clauses++;
        }
    }
    *line = from.line;
    return is_right;
}

bool is_model(const formula *of, const signed char *model) {
    bool is_true = false;
    for (int i = 0; i < of->literals.size; i++) {
        int literal = of->literals.items[i];
        if (literal == 0) {
            if (!is_true) return false;
            is_true = false;
        } else if (model[abs(literal)] == (literal > 0 ? 1 : -1)) {
            is_true = true;
        }
    }
    return true;
}
