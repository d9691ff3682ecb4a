/* The files that a program is given: those that lie in its image, and those of an archive that is its input. */
#include "given.h"
#include "../source/calls.h"
#include "node.h"
#include <stdlib.h>
#include <string.h>

enum { RECORD_BYTES = 512, STATUS_OF_NO_ARCHIVE = 126, END_OF_INPUT = -1 };

/* The parts of a header of POSIX's ustar format that are looked at. */
enum { NAME_AT = 0, NAME_ROOM = 100, SIZE_AT = 124, NUMBER_ROOM = 12, SUM_AT = 148, SUM_ROOM = 8, KIND_AT = 156, MAGIC_AT = 257,
       PREFIX_AT = 345, PREFIX_ROOM = 155 };

__attribute__((section(".data.guest_given"), used)) volatile struct given __guest_given;

static void refuse(const char *what, const char *name) {
    __guest_say("the files of the guest: ");
    __guest_say(name);
    __guest_say(what);
    __guest_stop(STATUS_OF_NO_ARCHIVE);
}

static struct node *make(const char *name, enum kind kind) {
    struct node *node = __guest_make_given(name, kind);
    if (!node) refuse(": there is no room for it, or the name is taken, or leads out of its folder\n", name);
    return node;
}

static void take_image(void) {
    for (uint32_t i = 0; i < __guest_given.count; i++) {
        const struct given_file *file = &__guest_given.first[i];
        struct node *node = make(file->name, PLAIN);
        node->content.given = file->bytes;
        node->content.size = file->size;
    }
}

/* --- An archive as the input -------------------------------------------------------------------------------------- */

static int get(void) { return (int)runtime(CALL_GETC, 0, 0, 0, 0).result; }

/* False: the input ends before. */
static bool get_bytes(char *to, uint32_t count) {
    for (uint32_t i = 0; i < count; i++) {
        int byte = get();
        if (byte == END_OF_INPUT) return false;
        to[i] = (char)byte;
    }
    return true;
}

/* Digits to the base 8, between blanks and zeros; MOST_SIZE for a number that is greater. */
static uint32_t number_at(const char *at, uint32_t room) {
    uint64_t number = 0;
    for (const char *end = at + room; at < end; at++) {
        if (*at >= '0' && *at <= '7') number = number * 8 + (uint32_t)(*at - '0');
    }
    return number < MOST_SIZE ? (uint32_t)number : MOST_SIZE;
}

/* The sum of a header's bytes, with blanks in its own place. */
static uint32_t sum_of(const char *header) {
    uint32_t sum = 0;
    for (uint32_t i = 0; i < RECORD_BYTES; i++) {
        sum += i >= SUM_AT && i < SUM_AT + SUM_ROOM ? ' ' : (unsigned char)header[i];
    }
    return sum;
}

static bool is_empty(const char *header) {
    for (uint32_t i = 0; i < RECORD_BYTES; i++) {
        if (header[i]) return false;
    }
    return true;
}

/* The bytes of an entry, in the heap, with a zero behind them. */
static char *get_entry(uint32_t size, const char *name) {
    char *bytes = malloc(size + 1), rest[RECORD_BYTES];
    if (!bytes) refuse(": there is no room for it (--pages)\n", name);
    if (!get_bytes(bytes, size) || !get_bytes(rest, -size % RECORD_BYTES)) refuse(": the archive ends in its middle\n", name);
    bytes[size] = 0;
    return bytes;
}

/* Adds a text that has at most so many bytes, and maybe no zero behind it. */
static char *add(char *to, const char *text, size_t room) {
    size_t length = strnlen(text, room);
    memcpy(to, text, length);
    to[length] = 0;
    return to + length;
}

/* The name of a header: what an entry before it has told, or its own in two parts. */
static void name_of(const char *header, const char *told, char *name) {
    if (told) {
        if (strlen(told) > MOST_PATH) refuse(": the name is too long\n", told);
        add(name, told, MOST_PATH);
        return;
    }
    if (memcmp(header + MAGIC_AT, "ustar\0", 6) == 0 && header[PREFIX_AT]) {
        name = add(name, header + PREFIX_AT, PREFIX_ROOM);
        *name++ = '/';
    }
    add(name, header + NAME_AT, NAME_ROOM);
}

/* The value of `path` in records of the form "LENGTH KEY=VALUE\n"; NULL: there is none. */
static char *path_of(const char *records, const char *end, const char *name) {
    char *path = NULL;
    while (records < end && *records) {
        char *key;
        uint32_t length = strtoul(records, &key, 10);
        if (*key != ' ' || length > (size_t)(end - records) || length <= (size_t)(key - records)) {
            refuse(": what the archive tells of it can't be read\n", name);
        }
        if (strncmp(key, " path=", 6) == 0 && records + length > key + 6) {
            free(path);
            path = strndup(key + 6, (size_t)(records + length - 1 - (key + 6)));
        }
        records += length;
    }
    return path;
}

static void take_file(const char *name, uint32_t size) {
    char *bytes = get_entry(size, name);
    struct node *node = make(name, PLAIN);
    if (node->content.given) refuse(": it is there twice\n", name);
    node->content.given = bytes;
    node->content.size = size;
    node->content.frees_given = true;
}

/* Takes an entry. Answers the name that it tells of the next one, if it does. */
static char *take_entry(const char *header, const char *told) {
    uint32_t size = number_at(header + SIZE_AT, NUMBER_ROOM);
    char name[MOST_PATH + 1], *bytes, *path = NULL;
    name_of(header, told, name);
    switch (header[KIND_AT]) {
    case 0:
    case '0':
    case '7': take_file(name, size); break;
    case '5': make(name, FOLDER); break;
    case 'L': return get_entry(size, name);
    case 'x':
    case 'g':
        bytes = get_entry(size, name);
        if (header[KIND_AT] == 'x') path = path_of(bytes, bytes + size, name);
        free(bytes);
        break;
    default: refuse(" is no file and no folder of the archive\n", name);
    }
    return path;
}

/* Up to the end of the input: stdin is at its end then. */
static void take_archive(void) {
    char header[RECORD_BYTES], *told = NULL;
    while (get_bytes(header, RECORD_BYTES) && !is_empty(header)) {
        if (number_at(header + SUM_AT, SUM_ROOM) != sum_of(header)) refuse("the input is no archive of tar\n", "");
        char *next = take_entry(header, told);
        free(told);
        told = next;
    }
    free(told);
    while (get() != END_OF_INPUT) {
    }
}

void __guest_take_given_files(void) {
    take_image();
    if (__guest_given.input_is_tar) take_archive();
}
