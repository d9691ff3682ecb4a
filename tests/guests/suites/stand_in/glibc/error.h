/* The header of Linux of that name: it tells an error, and ends the process where the status isn't 0. */
#ifndef STAND_IN_ERROR_H
#define STAND_IN_ERROR_H

#include <stdio.h>
#include <stdlib.h>
#include <string.h>

#define error(status, number, ...)                                       \
    do {                                                                 \
        printf(__VA_ARGS__);                                             \
        printf("%s%s\n", (number) ? ": " : "", (number) ? strerror(number) : ""); \
        if (status) exit(status);                                        \
    } while (0)

#endif
