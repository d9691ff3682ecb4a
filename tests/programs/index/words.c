#include "words.h"
#include <ctype.h>

char *next_word(char **rest, size_t *length) {
    char *at = *rest;
    while (*at && !isalpha((unsigned char)*at)) at++;
    char *begin = at;
    for (; isalpha((unsigned char)*at) || (*at == '\'' && at > begin); at++) *at = (char)tolower((unsigned char)*at);
    *rest = at;
    while (at > begin && at[-1] == '\'') at--;
    *length = (size_t)(at - begin);
    return at > begin ? begin : NULL;
}
