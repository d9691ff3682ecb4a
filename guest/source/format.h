/* Formats of printf (C11, 7.21.6.1; POSIX, fprintf), and the values that they print. */
#ifndef GUEST_FORMAT_H
#define GUEST_FORMAT_H

#include <limits.h>
#include <stdarg.h>
#include <stdbool.h>
#include <stdint.h>

enum { NOT_GIVEN = -1 };

/* Of `size` hh is H, and ll is q. */
struct format {
    bool is_left, has_plus, has_space, is_alternate, has_zeros;
    int width, precision;
    char size, kind;
    int number; /* of its value, from 1 on; 0: it is the next one */
    int error;  /* EOVERFLOW, EINVAL: why it can't be printed; or 0 */
};

/* As it was passed: a pointer, a long and a size_t are one word. */
union value {
    uintptr_t word;
    unsigned long long two_words;
    double real;
    long double long_real;
};

/* The values of one call, in their order, or by numbers: then a pass over the formats notes how each is passed, and they are
   read at once. */
struct values {
    va_list list;
    unsigned char *ways;         /* while they are noted */
    const union value *numbered; /* once they are read */
};

/* Reads a format from behind its percent sign. Answers what follows it. */
const char *__guest_read_format(const char *at, struct format *format, struct values *values);

/* The value that a format prints; of no meaning where it prints none. */
union value __guest_value_of(const struct format *format, struct values *values);

/* Reads the values of a text whose formats have numbers, into `room`. */
void __guest_read_numbered(const char *text, struct values *values, union value room[NL_ARGMAX]);

#endif
