/* What guest/image writes into the image of a program with files. */
#ifndef GUEST_FILES_GIVEN_H
#define GUEST_FILES_GIVEN_H

#include <stdint.h>

/* A file that lies in the image. */
struct given_file {
    const char *name, *bytes;
    uint32_t size;
};

struct given {
    const struct given_file *first;
    uint32_t count;
    char *end; /* where the heap begins, behind them; NULL: there are none */
    uint32_t input_is_tar;
};
extern volatile struct given __guest_given;

#endif
