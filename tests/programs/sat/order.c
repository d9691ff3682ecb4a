#include "order.h"

#define LARGEST 1e100
#define DECAY 0.95

static bool is_before(const order *of, int first, int second) {
    double one = of->activity[first], other = of->activity[second];
    return one > other || (one == other && first < second);
}

static void put(order *of, int at, int variable) {
    of->heap.items[at] = variable;
    of->place[variable] = at;
}

static void rise(order *of, int at) {
    int variable = of->heap.items[at];
    for (int parent; at > 0; at = parent) {
        parent = (at - 1) / 2;
        if (!is_before(of, variable, of->heap.items[parent])) break;
        put(of, at, of->heap.items[parent]);
    }
    put(of, at, variable);
}

static void sink(order *of, int at) {
    int variable = of->heap.items[at];
    for (int child; (child = 2 * at + 1) < of->heap.size; at = child) {
        if (child + 1 < of->heap.size && is_before(of, of->heap.items[child + 1], of->heap.items[child])) child++;
        if (!is_before(of, of->heap.items[child], variable)) break;
        put(of, at, of->heap.items[child]);
    }
    put(of, at, variable);
}

void make_order(order *of, int variables) {
    of->heap = (vector){NULL, 0, 0};
    of->place = malloc(((size_t)variables + 1) * sizeof *of->place);
    of->activity = calloc((size_t)variables + 1, sizeof *of->activity);
    of->increment = 1;
    if (!of->place || !of->activity) abort();
    for (int variable = 1; variable <= variables; variable++) {
        of->place[variable] = -1;
        insert(of, variable);
    }
}

void free_order(order *of) {
    release(&of->heap);
    free(of->place);
    free(of->activity);
}

bool is_empty(const order *of) { return of->heap.size == 0; }

int take_first(order *of) {
    int first = of->heap.items[0], last = pop(&of->heap);
    of->place[first] = -1;
    if (of->heap.size > 0) {
        put(of, 0, last);
        sink(of, 0);
    }
    return first;
}

void insert(order *of, int variable) {
    if (of->place[variable] >= 0) return;
    push(&of->heap, variable);
    of->place[variable] = of->heap.size - 1;
    rise(of, of->heap.size - 1);
}

void bump(order *of, int variable) {
    of->activity[variable] += of->increment;
    if (of->activity[variable] > LARGEST) {
        for (int i = 0; i < of->heap.size; i++) of->activity[of->heap.items[i]] *= 1 / LARGEST;
        of->activity[variable] *= of->place[variable] < 0 ? 1 / LARGEST : 1;
        of->increment *= 1 / LARGEST;
    }
    if (of->place[variable] >= 0) rise(of, of->place[variable]);
}

void decay(order *of) { of->increment *= 1 / DECAY; }
