/* The words of a line. */
#ifndef WORDS_H
#define WORDS_H

#include <stddef.h>

/* Makes letters small and goes on to the next word; NULL at the end of the line. */
char *next_word(char **rest, size_t *length);

#endif
