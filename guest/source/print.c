/*
 * Formatted output (C11, 7.21.6.1), in place of the C library's: numbers with a fraction have exactly the digits that the format asks
 * for, and a long double can be printed.
 *
 * This file is linked where a program asks for the usual printf: see guest/cc.
 */
#include "digits.h"
#include "format.h"
#include <ctype.h>
#include <errno.h>
#include <limits.h>
#include <stddef.h>
#include <stdio.h>
#include <string.h>
#include <wchar.h>

enum { USUAL_PRECISION = 6, MOST_DIGITS = 22, MOST_NIBBLES = 29 };

struct output {
    FILE *stream;
    int count;
    bool has_failed; /* nothing more is put then */
};

static void fail(struct output *to, int error) {
    errno = error;
    to->has_failed = true;
}

/* Whether so many bytes more are still a count. */
static bool has_room(struct output *to, unsigned bytes) {
    if (!to->has_failed && bytes > (unsigned)(INT_MAX - to->count)) fail(to, EOVERFLOW);
    return !to->has_failed;
}

static void put(struct output *to, char byte) {
    if (!has_room(to, 1)) return;
    to->count++;
    if (to->stream->put(byte, to->stream) >= 0) return;
    to->stream->flags |= __SERR;
    to->has_failed = true;
}

static void put_all(struct output *to, const char *text, unsigned length) {
    for (unsigned i = 0; i < length; i++) put(to, text[i]);
}

static void put_many(struct output *to, char byte, unsigned count) {
    for (; count > 0 && !to->has_failed; count--) put(to, byte);
}

/* Puts what stands before a text of so many bytes, and answers how many blanks stand behind it. */
static unsigned begin(struct output *to, const struct format *format, const char *prefix, unsigned length) {
    unsigned before = strlen(prefix), whole = before + length, width = (unsigned)format->width;
    unsigned fill = width > whole ? width - whole : 0;
    bool has_zeros = format->has_zeros && !format->is_left;
    if (!has_room(to, whole + fill)) return 0;
    if (!format->is_left && !has_zeros) put_many(to, ' ', fill);
    put_all(to, prefix, before);
    if (has_zeros) put_many(to, '0', fill);
    return format->is_left ? fill : 0;
}

/* --- Texts -------------------------------------------------------------------------------------------------------- */

static void put_text(struct output *to, struct format *format, const char *text) {
    if (!text) text = "(null)";
    size_t length = format->precision < 0 ? strlen(text) : strnlen(text, (size_t)format->precision);
    format->has_zeros = false;
    unsigned behind = begin(to, format, "", length);
    put_all(to, text, length);
    put_many(to, ' ', behind);
}

static void put_byte(struct output *to, struct format *format, char byte) {
    format->has_zeros = false;
    unsigned behind = begin(to, format, "", 1);
    put(to, byte);
    put_many(to, ' ', behind);
}

/* The bytes of a wide character, and how many; 0: it would be more than `room`, or it has none, which fails. */
static unsigned bytes_of(struct output *to, wchar_t wide, unsigned room, char bytes[MB_LEN_MAX]) {
    mbstate_t state = {0};
    size_t length = wcrtomb(bytes, wide, &state);
    if (length == (size_t)-1) fail(to, EILSEQ);
    return length <= room ? length : 0;
}

/* How many bytes of a wide text a precision lets through: those of whole characters. */
static unsigned wide_length(struct output *to, const wchar_t *text, unsigned most) {
    char bytes[MB_LEN_MAX];
    unsigned length = 0, more;
    for (; length < most && *text && (more = bytes_of(to, *text, most - length, bytes)); text++) length += more;
    return length;
}

static void put_wide_text(struct output *to, struct format *format, const wchar_t *text) {
    char bytes[MB_LEN_MAX];
    unsigned most = format->precision < 0 ? INT_MAX : (unsigned)format->precision, length = wide_length(to, text, most);
    format->has_zeros = false;
    unsigned behind = begin(to, format, "", length);
    while (length > 0 && !to->has_failed) {
        unsigned count = bytes_of(to, *text++, length, bytes);
        put_all(to, bytes, count);
        length -= count;
    }
    put_many(to, ' ', behind);
}

/* C11, 7.21.6.1: as a text of the one character. */
static void put_wide(struct output *to, struct format *format, wchar_t wide) {
    format->precision = NOT_GIVEN;
    put_wide_text(to, format, (wchar_t[]){wide, 0});
}

static const char *sign_of(const struct format *format, bool is_negative) {
    return is_negative ? "-" : format->has_plus ? "+" : format->has_space ? " " : "";
}

/* --- Whole numbers ------------------------------------------------------------------------------------------------ */

/* Writes digits down from `end`, none of 0. Answers the first. */
static char *write_digits(char *end, unsigned long long value, unsigned base, bool is_upper) {
    const char *digits = is_upper ? "0123456789ABCDEF" : "0123456789abcdef";
    for (; value > UINT_MAX; value /= base) *--end = digits[value % base];
    for (unsigned rest = (unsigned)value; rest; rest /= base) *--end = digits[rest % base];
    return end;
}

static void put_whole(struct output *to, struct format *format, const char *prefix, unsigned long long value, unsigned base) {
    char digits[MOST_DIGITS], *end = digits + sizeof digits, *first = write_digits(end, value, base, format->kind == 'X');
    unsigned length = (unsigned)(end - first), least = format->precision < 0 ? 1 : (unsigned)format->precision;
    if (format->precision >= 0) format->has_zeros = false;
    if (format->kind == 'o' && format->is_alternate && least <= length) least = length + 1;
    unsigned zeros = least > length ? least - length : 0, behind = begin(to, format, prefix, zeros + length);
    put_many(to, '0', zeros);
    put_all(to, first, length);
    put_many(to, ' ', behind);
}

static long long signed_value(char size, const union value *value) {
    switch (size) {
    case 'H': return (signed char)value->word;
    case 'h': return (short)value->word;
    case 'q':
    case 'j': return (long long)value->two_words;
    default: return (int)value->word; /* a long is an int, and so is a ptrdiff_t */
    }
}

static unsigned long long unsigned_value(char size, const union value *value) {
    switch (size) {
    case 'H': return (unsigned char)value->word;
    case 'h': return (unsigned short)value->word;
    case 'q':
    case 'j': return value->two_words;
    default: return (unsigned)value->word;
    }
}

static void put_signed(struct output *to, struct format *format, long long value) {
    unsigned long long size = value < 0 ? -(unsigned long long)value : (unsigned long long)value;
    put_whole(to, format, sign_of(format, value < 0), size, 10);
}

static void put_unsigned(struct output *to, struct format *format, unsigned long long value) {
    unsigned base = format->kind == 'u' ? 10 : format->kind == 'o' ? 8 : 16;
    bool has_prefix = format->is_alternate && base == 16 && value;
    put_whole(to, format, !has_prefix ? "" : format->kind == 'X' ? "0X" : "0x", value, base);
}

static void put_pointer(struct output *to, struct format *format, void *pointer) {
    put_whole(to, format, "0x", (uintptr_t)pointer, 16);
}

/* --- Numbers with a fraction -------------------------------------------------------------------------------------- */

/* Puts so many digits from a place down. Below the least place there are zeros alone. */
static void put_places(struct output *to, const struct digits *digits, int from, unsigned count) {
    unsigned shown = (unsigned)(from - LEAST_PLACE + 1);
    if (shown > count) shown = count;
    for (unsigned i = 0; i < shown && !to->has_failed; i++) put(to, (char)('0' + __guest_digit_at(digits, from - (int)i)));
    put_many(to, '0', count - shown);
}

/* The place of the last of so many digits below one, or one that is below all digits. */
static int last_place(int from, unsigned count) {
    return count < (unsigned)(from - LEAST_PLACE + 1) ? from - (int)count : LEAST_PLACE - 1;
}

/* As %f, with so many digits behind the point; all are there, rounded. */
static void put_fixed(struct output *to, const struct format *format, const char *sign, const struct digits *digits,
                      unsigned precision) {
    int leading = __guest_leading_place(digits), top = leading > 0 ? leading : 0;
    bool has_point = precision > 0 || format->is_alternate;
    unsigned whole = (unsigned)top + 1, behind = begin(to, format, sign, whole + has_point + precision);
    put_places(to, digits, top, whole);
    if (has_point) put(to, '.');
    put_places(to, digits, -1, precision);
    put_many(to, ' ', behind);
}

/* The letter, a sign, and so many digits at least. Answers how many bytes it wrote. */
static unsigned write_exponent(char *text, char letter, int exponent, int least) {
    char digits[MOST_DIGITS], *end = digits + sizeof digits;
    char *first = write_digits(end, (unsigned)(exponent < 0 ? -exponent : exponent), 10, false);
    while (end - first < least) *--first = '0';
    text[0] = letter;
    text[1] = exponent < 0 ? '-' : '+';
    memcpy(text + 2, first, (size_t)(end - first));
    return 2 + (unsigned)(end - first);
}

/* As %e. */
static void put_scientific(struct output *to, const struct format *format, const char *sign, const struct digits *digits,
                           unsigned precision) {
    char exponent[MOST_DIGITS];
    int top = __guest_leading_place(digits);
    unsigned length = write_exponent(exponent, format->kind < 'a' ? 'E' : 'e', top, 2);
    bool has_point = precision > 0 || format->is_alternate;
    unsigned behind = begin(to, format, sign, 1 + has_point + precision + length);
    put_places(to, digits, top, 1);
    if (has_point) put(to, '.');
    put_places(to, digits, top - 1, precision);
    put_all(to, exponent, length);
    put_many(to, ' ', behind);
}

/* How many of so many digits below a place there are without zeros at the end. */
static unsigned without_zeros(const struct digits *digits, int place, unsigned count) {
    unsigned most = (unsigned)(place - LEAST_PLACE);
    if (count > most) count = most;
    while (count > 0 && !__guest_digit_at(digits, place - (int)count)) count--;
    return count;
}

/* As %g. */
static void put_shorter(struct output *to, const struct format *format, const char *sign, struct digits *digits, int precision) {
    int count = precision > 0 ? precision : 1;
    __guest_round_at(digits, last_place(__guest_leading_place(digits), (unsigned)count - 1));
    int top = __guest_leading_place(digits);
    bool is_fixed = top >= -4 && top < count;
    unsigned behind_point = (unsigned)count - 1 - (is_fixed ? (unsigned)top : 0);
    if (!format->is_alternate) behind_point = without_zeros(digits, is_fixed ? 0 : top, behind_point);
    if (is_fixed) put_fixed(to, format, sign, digits, behind_point);
    else put_scientific(to, format, sign, digits, behind_point);
}

/* Rounds digits of four bits to so many behind the first. */
static void round_nibbles(unsigned char *nibbles, int count, int precision) {
    int rest = 0;
    for (int i = precision + 2; i <= count; i++) rest |= nibbles[i];
    int next = nibbles[precision + 1];
    if (next < 8 || (next == 8 && !rest && nibbles[precision] % 2 == 0)) return;
    int i = precision;
    while (i > 0 && nibbles[i] == 15) nibbles[i--] = 0;
    nibbles[i]++;
}

/* As %a. */
static void put_hexadecimal(struct output *to, const struct format *format, const char *sign, const struct number *number) {
    unsigned char nibbles[MOST_NIBBLES];
    char prefix[4], exponent[MOST_DIGITS];
    bool is_upper = format->kind == 'A', is_zero = true;
    int count = number->fraction_bits / 4, precision = count;
    for (int i = 0; i <= count; i++) {
        nibbles[i] = (unsigned char)__guest_bits_of(number, 4 * (count - i), i ? 4 : 1);
        if (nibbles[i]) is_zero = false;
    }
    if (format->precision >= 0) precision = format->precision;
    else while (precision > 0 && !nibbles[precision]) precision--;
    if (precision < count) round_nibbles(nibbles, count, precision);
    unsigned length = write_exponent(exponent, is_upper ? 'P' : 'p', is_zero ? 0 : number->exponent + number->fraction_bits, 1);
    bool has_point = precision > 0 || format->is_alternate;
    strcat(strcpy(prefix, sign), is_upper ? "0X" : "0x");
    unsigned behind = begin(to, format, prefix, 1 + has_point + (unsigned)precision + length);
    for (int i = 0; i <= precision && i <= count; i++) {
        put(to, (is_upper ? "0123456789ABCDEF" : "0123456789abcdef")[nibbles[i]]);
        if (i == 0 && has_point) put(to, '.');
    }
    if (precision > count) put_many(to, '0', (unsigned)(precision - count));
    put_all(to, exponent, length);
    put_many(to, ' ', behind);
}

static void put_finite(struct output *to, const struct format *format, const char *sign, const struct number *number) {
    uint32_t limbs[__guest_limbs_for(number)];
    struct digits digits = __guest_digits_of(number, limbs);
    int precision = format->precision < 0 ? USUAL_PRECISION : format->precision;
    switch (tolower((unsigned char)format->kind)) {
    case 'f':
        __guest_round_at(&digits, last_place(0, (unsigned)precision));
        put_fixed(to, format, sign, &digits, (unsigned)precision);
        break;
    case 'e':
        __guest_round_at(&digits, last_place(__guest_leading_place(&digits), (unsigned)precision));
        put_scientific(to, format, sign, &digits, (unsigned)precision);
        break;
    default: put_shorter(to, format, sign, &digits, precision);
    }
}

static void put_number(struct output *to, struct format *format, struct number number) {
    const char *sign = sign_of(format, number.is_negative);
    bool is_upper = format->kind < 'a';
    if (number.kind == FINITE) {
        if (tolower((unsigned char)format->kind) == 'a') put_hexadecimal(to, format, sign, &number);
        else put_finite(to, format, sign, &number);
        return;
    }
    format->has_zeros = false;
    const char *text = number.kind == INFINITE ? (is_upper ? "INF" : "inf") : (is_upper ? "NAN" : "nan");
    unsigned behind = begin(to, format, sign, 3);
    put_all(to, text, 3);
    put_many(to, ' ', behind);
}

/* --- Formats ------------------------------------------------------------------------------------------------------ */

static void store_count(char size, void *to, int count) {
    switch (size) {
    case 'H': *(signed char *)to = (signed char)count; break;
    case 'h': *(short *)to = (short)count; break;
    case 'q':
    case 'j': *(long long *)to = count; break;
    default: *(int *)to = count; /* a long is an int, and so is a ptrdiff_t */
    }
}

static void put_value(struct output *to, struct format *format, const union value *value) {
    void *pointer = (void *)value->word;
    bool is_long = format->size == 'l';
    switch (format->kind) {
    case 'd':
    case 'i': put_signed(to, format, signed_value(format->size, value)); break;
    case 'o':
    case 'u':
    case 'x':
    case 'X': put_unsigned(to, format, unsigned_value(format->size, value)); break;
    case 'c': is_long ? put_wide(to, format, (wchar_t)value->word) : put_byte(to, format, (char)value->word); break;
    case 's': is_long && pointer ? put_wide_text(to, format, pointer) : put_text(to, format, pointer); break;
    case 'p': put_pointer(to, format, pointer); break;
    case 'n': store_count(format->size, pointer, to->count); break;
    case '%': put(to, '%'); break;
    default:
        if (!format->kind || !strchr("aAeEfFgG", format->kind)) break;
        put_number(to, format, format->size == 'L' ? __guest_number_of_long(value->long_real) : __guest_number_of(value->real));
    }
}

static int print(FILE *stream, const char *text, struct values *values) {
    struct output to = {.stream = stream};
    while (*text && !to.has_failed) {
        if (*text != '%') {
            put(&to, *text++);
            continue;
        }
        struct format format;
        text = __guest_read_format(text + 1, &format, values);
        union value value = __guest_value_of(&format, values);
        if (format.error) fail(&to, format.error);
        else put_value(&to, &format, &value);
    }
    return to.has_failed ? EOF : to.count;
}

/* Not a part of vfprintf: the room is much for a stack. */
static __attribute__((noinline)) int print_numbered(FILE *stream, const char *text, struct values *values) {
    union value room[NL_ARGMAX];
    __guest_read_numbered(text, values, room);
    return print(stream, text, values);
}

int vfprintf(FILE *stream, const char *text, va_list given) {
    struct values values = {.numbered = NULL};
    if (!(stream->flags & __SWR)) {
        stream->flags |= __SERR;
        errno = EBADF;
        return EOF;
    }
    va_copy(values.list, given);
    int count = strchr(text, '$') ? print_numbered(stream, text, &values) : print(stream, text, &values);
    va_end(values.list);
    return count;
}
