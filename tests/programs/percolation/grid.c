#include "grid.h"
#include <stdbool.h>
#include <stdlib.h>

typedef struct {
    int size;
    int *parent;    /* of each site, and of two more: the top and the bottom; roots hold their weight, negative */
    int *order;     /* in which sites are opened */
    bool *is_open;
} grid;

static int root_of(grid *of, int site) {
    while (of->parent[site] >= 0) {
        int parent = of->parent[site];
        if (of->parent[parent] >= 0) of->parent[site] = of->parent[parent];
        site = parent;
    }
    return site;
}

static void join(grid *of, int first, int second) {
    int one = root_of(of, first), other = root_of(of, second);
    if (one == other) return;
    if (of->parent[one] > of->parent[other]) {
        int heavier = other;
        other = one;
        one = heavier;
    }
    of->parent[one] += of->parent[other];
    of->parent[other] = one;
}

static void open_site(grid *of, int site) {
    int size = of->size, column = site % size, top = size * size, bottom = top + 1;
    of->is_open[site] = true;
    if (site < size) join(of, site, top);
    else if (of->is_open[site - size]) join(of, site, site - size);
    if (site >= size * (size - 1)) join(of, site, bottom);
    else if (of->is_open[site + size]) join(of, site, site + size);
    if (column > 0 && of->is_open[site - 1]) join(of, site, site - 1);
    if (column < size - 1 && of->is_open[site + 1]) join(of, site, site + 1);
}

static void shuffle(int *order, int count, random_stream *chance) {
    for (int i = 0; i < count; i++) {
        int other = (int)random_below(chance, (uint32_t)(i + 1));
        order[i] = order[other];
        order[other] = i;
    }
}

static int run(grid *of, random_stream *chance) {
    int count = of->size * of->size, opened = 0;
    for (int i = 0; i < count + 2; i++) of->parent[i] = -1;
    shuffle(of->order, count, chance);
    while (root_of(of, count) != root_of(of, count + 1)) open_site(of, of->order[opened++]);
    return opened;
}

int sites_until_flow(int size, random_stream *chance) {
    size_t count = (size_t)size * (size_t)size;
    grid of = {size, malloc((count + 2) * sizeof(int)), malloc(count * sizeof(int)), calloc(count, sizeof(bool))};
    int opened = of.parent && of.order && of.is_open ? run(&of, chance) : -1;
    free(of.parent);
    free(of.order);
    free(of.is_open);
    return opened;
}
