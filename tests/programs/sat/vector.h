/* Growing arrays of int. */
#ifndef VECTOR_H
#define VECTOR_H

#include <stdlib.h>

typedef struct {
    int *items;
    int size, room;
} vector;

static inline void push(vector *list, int item) {
    if (list->size == list->room) {
        list->room = list->room ? 2 * list->room : 8;
        list->items = realloc(list->items, (size_t)list->room * sizeof *list->items);
        if (!list->items) abort();
    }
    list->items[list->size++] = item;
}

static inline int pop(vector *list) { return list->items[--list->size]; }

static inline void release(vector *list) {
    free(list->items);
    *list = (vector){NULL, 0, 0};
}

#endif
