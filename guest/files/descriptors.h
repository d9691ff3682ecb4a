/* Open files, by the numbers that a program has for them. */
#ifndef GUEST_FILES_DESCRIPTORS_H
#define GUEST_FILES_DESCRIPTORS_H

#include "node.h"
#include <fcntl.h>

/* How many files may be open at once. */
enum { MOST_OPEN = 64 };

/* What descriptors share that were made of one another. */
struct open_file {
    struct node *node;
    uint32_t offset;
    int flags; /* as of `open` */
    uint32_t uses;
};

static inline bool reads(const struct open_file *file) { return (file->flags & O_ACCMODE) != O_WRONLY; }
static inline bool writes(const struct open_file *file) { return (file->flags & O_ACCMODE) != O_RDONLY; }

/* Under the lock: NULL for a number that isn't open. */
struct open_file *__guest_open_file(int number);

/* Where a name begins of a call that has a descriptor for that. */
int __guest_begin_of(int number, struct node **begin);

/* A descriptor for a node. */
int __guest_open_node(struct node *node, int flags);

/* Reads as `read`, and counts what came even where the thread is cancelled as it waits for input. */
int __guest_read_some(int number, char *to, uint32_t count, uint32_t *came);

/* write and close for streams, whose locks no cancellation may leave: these are no cancellation points. */
ssize_t __guest_write_some(int number, const void *from, size_t count);
int __guest_close(int number);

/* Cuts a file, or makes it longer, with zeros. */
int __guest_resize(struct node *node, off_t size);

#endif
