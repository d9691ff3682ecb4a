/* What a format of printf says, and which value it prints. */
#include "format.h"
#include <ctype.h>
#include <errno.h>
#include <stddef.h>
#include <string.h>

/* --- Values ------------------------------------------------------------------------------------------------------- */

/* How a value is passed. */
enum way { NOT_PASSED, AS_WORD, AS_TWO_WORDS, AS_DOUBLE, AS_LONG_DOUBLE };

static enum way way_of(const struct format *format) {
    if (!format->kind) return NOT_PASSED;
    if (strchr("diouxX", format->kind)) return format->size == 'q' || format->size == 'j' ? AS_TWO_WORDS : AS_WORD;
    if (strchr("cspn", format->kind)) return AS_WORD;
    if (strchr("aAeEfFgG", format->kind)) return format->size == 'L' ? AS_LONG_DOUBLE : AS_DOUBLE;
    return NOT_PASSED;
}

static union value next(struct values *values, enum way way) {
    switch (way) {
    case AS_WORD: return (union value){.word = va_arg(values->list, uintptr_t)};
    case AS_TWO_WORDS: return (union value){.two_words = va_arg(values->list, unsigned long long)};
    case AS_DOUBLE: return (union value){.real = va_arg(values->list, double)};
    case AS_LONG_DOUBLE: return (union value){.long_real = va_arg(values->list, long double)};
    default: return (union value){0};
    }
}

static union value take(struct values *values, int number, enum way way) {
    if (values->ways) {
        if (number && way != NOT_PASSED) values->ways[number - 1] = (unsigned char)way;
        return (union value){0};
    }
    return number ? values->numbered[number - 1] : next(values, way);
}

union value __guest_value_of(const struct format *format, struct values *values) {
    return take(values, format->number, way_of(format));
}

/* POSIX leaves open what a number means that no format has below the greatest: it counts as an int here. */
void __guest_read_numbered(const char *text, struct values *values, union value room[NL_ARGMAX]) {
    unsigned char ways[NL_ARGMAX] = {NOT_PASSED};
    struct format format;
    int count = NL_ARGMAX;
    values->ways = ways;
    while ((text = strchr(text, '%'))) {
        text = __guest_read_format(text + 1, &format, values);
        __guest_value_of(&format, values);
    }
    values->ways = NULL;
    while (count > 0 && ways[count - 1] == NOT_PASSED) count--;
    for (int i = 0; i < count; i++) room[i] = next(values, ways[i] == NOT_PASSED ? AS_WORD : (enum way)ways[i]);
    values->numbered = room;
}

/* --- Formats ------------------------------------------------------------------------------------------------------ */

static const char *read_flags(const char *at, struct format *format) {
    for (;; at++) {
        switch (*at) {
        case '-': format->is_left = true; break;
        case '+': format->has_plus = true; break;
        case ' ': format->has_space = true; break;
        case '#': format->is_alternate = true; break;
        case '0': format->has_zeros = true; break;
        case '\'': break; /* the one locale has no groups of thousands */
        default: return at;
        }
    }
}

static const char *read_digits(const char *at, int *number, int *error) {
    *number = 0;
    for (; isdigit((unsigned char)*at); at++) {
        bool is_large = __builtin_mul_overflow(*number, 10, number);
        if (__builtin_add_overflow(*number, *at - '0', number) || is_large) *error = EOVERFLOW;
    }
    return at;
}

/* Reads the number of a value, which a dollar sign ends, if one is there: else it is 0. */
static const char *read_place(const char *at, int *number, int *error) {
    int ignored = 0;
    const char *end = read_digits(at, number, &ignored);
    if (end == at || *end != '$') {
        *number = 0;
        return at;
    }
    if (ignored || *number < 1 || *number > NL_ARGMAX) {
        *number = 0;
        *error = EINVAL;
    }
    return end + 1;
}

/* Reads a width or a precision. */
static const char *read_amount(const char *at, int *amount, struct format *format, struct values *values) {
    int number;
    if (*at != '*') return read_digits(at, amount, &format->error);
    at = read_place(at + 1, &number, &format->error);
    *amount = (int)take(values, number, AS_WORD).word;
    return at;
}

static const char *read_size(const char *at, struct format *format) {
    if (strchr("hljztL", *at) && *at) format->size = *at++;
    if (format->size == *at && (*at == 'h' || *at == 'l')) format->size = *at++ == 'h' ? 'H' : 'q';
    return at;
}

const char *__guest_read_format(const char *at, struct format *format, struct values *values) {
    *format = (struct format){.precision = NOT_GIVEN};
    at = read_flags(read_place(at, &format->number, &format->error), format);
    at = read_amount(at, &format->width, format, values);
    if (format->width < 0) {
        format->is_left = true;
        if (__builtin_sub_overflow(0, format->width, &format->width)) format->error = EOVERFLOW;
    }
    if (*at == '.') at = read_amount(at + 1, &format->precision, format, values);
    at = read_size(at, format);
    format->kind = *at;
    if (*at == 'C' || *at == 'S') {
        format->size = 'l';
        format->kind = *at == 'C' ? 'c' : 's';
    }
    return *at ? at + 1 : at;
}
