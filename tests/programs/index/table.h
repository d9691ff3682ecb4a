/* Words and the lines that they stand in: a hash table in parts, each with a read-write lock. */
#ifndef TABLE_H
#define TABLE_H

#include <pthread.h>
#include <stddef.h>

#define TABLE_PARTS 4
#define TABLE_SLOTS 32

struct word {
    struct word *next;
    char *text;
    int *lines;
    size_t count, room;
};

struct part {
    pthread_rwlock_t lock;
    struct word *slots[TABLE_SLOTS];
    size_t count;
};

struct table {
    struct part parts[TABLE_PARTS];
};

void table_init(struct table *table);
void table_destroy(struct table *table);

/* The word stands in the line. Answers 0, or -1 without memory. */
int table_add(struct table *table, const char *text, size_t length, int line);

/* All words in the order of their texts, each with its lines in order; NULL without memory. To be freed. */
struct word **table_sorted(struct table *table, size_t *count);

#endif
