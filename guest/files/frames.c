/*
 * Puts frames on the console. One lock lies around each frame, and within it no other call is made: so a thread whose
 * stack has overflowed, wherever that was found, can wait for it.
 */
#include "frames.h"
#include "../source/calls.h"
#include "../source/locks.h"
#include <string.h>

#define MAGIC "ckrt-files 1\n"

static struct __lock frame_lock;

/* Within the image, since they are written too where memory ends before the variables do. */
#define IN_IMAGE __attribute__((section(".data.guest_frames")))
IN_IMAGE static bool has_begun;
IN_IMAGE static uint64_t console_bytes[2]; /* that stdout and stderr have had */

void __guest_begin_frames(void) {
    pthread_mutexattr_t attributes = {.type = PTHREAD_MUTEX_RECURSIVE};
    pthread_mutex_init(&frame_lock.mutex, &attributes);
}

/* Not by pthread.h, whose calls look at the stack. Answers the state of cancellation. */
static uint32_t begin_frame(void) {
    uint32_t state = runtime(CALL_SETCANCELSTATE, PTHREAD_CANCEL_DISABLE, 0, 0, 0).value;
    runtime(CALL_MUTEX_LOCK, (uint32_t)&frame_lock.mutex, 0, 0, 0);
    return state;
}

static void end_frame(uint32_t state) {
    runtime(CALL_MUTEX_UNLOCK, (uint32_t)&frame_lock.mutex, 0, 0, 0);
    runtime(CALL_SETCANCELSTATE, state, 0, 0, 0);
}

static void put(const char *from, uint32_t count) {
    for (const char *end = from + count; from < end; from++) runtime(CALL_PUTC, (unsigned char)*from, 0, 0, 0);
}

static void put_text(const char *text) {
    for (; *text; text++) runtime(CALL_PUTC, (unsigned char)*text, 0, 0, 0);
}

static void put_number(uint64_t number) {
    char digits[20], *at = digits + sizeof digits;
    do *--at = (char)('0' + number % 10);
    while (number /= 10);
    put_text(" ");
    put(at, (uint32_t)(digits + sizeof digits - at));
}

static void put_header(const char *kind, uint32_t name, uint64_t offset, uint32_t count) {
    if (!has_begun) put_text(MAGIC);
    has_begun = true;
    put_text(kind);
    put_number(name);
    put_number(offset);
    put_number(count);
    put_text("\n");
}

/* --- Names, from the working folder on ---------------------------------------------------------------------------- */

/* How many folders below the working one a node lies, itself counted. */
static uint32_t depth_of(const struct node *node) {
    uint32_t depth = 0;
    for (; node != &__guest_folder; node = node->folder) depth++;
    return depth;
}

static const struct node *ancestor(const struct node *node, uint32_t steps) {
    while (steps--) node = node->folder;
    return node;
}

static uint32_t name_bytes(const struct node *node) {
    uint32_t bytes = 0;
    for (; node != &__guest_folder; node = node->folder) bytes += (uint32_t)strlen(node->name) + 1;
    return bytes ? bytes - 1 : 0;
}

static void put_name(const struct node *node) {
    for (uint32_t depth = depth_of(node); depth > 0; depth--) {
        put_text(ancestor(node, depth - 1)->name);
        if (depth > 1) put_text("/");
    }
}

/* --- Frames of files ---------------------------------------------------------------------------------------------- */

static void put_frame(const char *kind, const struct node *node, uint32_t offset, const char *from, uint32_t count) {
    uint32_t state = begin_frame();
    put_header(kind, name_bytes(node), offset, count);
    put_name(node);
    put(from, count);
    put_text("\n");
    end_frame(state);
}

void __guest_put_write(const struct node *node, uint32_t offset, const char *from, uint32_t count) {
    while (count > 0) {
        uint32_t part = count < FRAME_BYTES ? count : FRAME_BYTES;
        put_frame("write", node, offset, from, part);
        offset += part;
        from += part;
        count -= part;
    }
}

void __guest_put_size(const struct node *node, uint32_t size) { put_frame("size", node, size, NULL, 0); }

void __guest_put_folder(const struct node *node) { put_frame("folder", node, 0, NULL, 0); }

void __guest_put_removal(const struct node *node) { put_frame("remove", node, 0, NULL, 0); }

void __guest_put_renaming(const struct node *node, const struct place *place) {
    uint32_t folder = name_bytes(place->folder), slash = folder > 0, state = begin_frame();
    put_header("rename", name_bytes(node), 0, folder + slash + (uint32_t)place->length);
    put_name(node);
    put_name(place->folder);
    if (slash) put_text("/");
    put(place->name, (uint32_t)place->length);
    put_text("\n");
    end_frame(state);
}

/* --- Frames of the console ---------------------------------------------------------------------------------------- */

void __guest_put_console(enum kind kind, const char *from, uint32_t count) {
    while (count > 0) {
        uint32_t part = count < FRAME_BYTES ? count : FRAME_BYTES, state = begin_frame();
        put_header(kind == OUTPUT ? "stdout" : "stderr", 0, console_bytes[kind == ERRORS], part);
        console_bytes[kind == ERRORS] += part;
        put(from, part);
        put_text("\n");
        end_frame(state);
        from += part;
        count -= part;
    }
}

/* In place of those of stack.c: what the kit says of an overflow, or of too little memory. */
void __guest_say(const char *text) { __guest_put_console(ERRORS, text, (uint32_t)strlen(text)); }

void __guest_say_number(uint32_t number) {
    char digits[11], *at = digits + sizeof digits - 1;
    *at = 0;
    do *--at = (char)('0' + number % 10);
    while (number /= 10);
    __guest_say(at);
}

/* The last frame has the status; no other thread puts one behind it, as the lock isn't given up. */
void __guest_stop(int status) {
    begin_frame();
    put_header("end", 0, (uint32_t)status, 0);
    put_text("\n");
    last_call(CALL_EXIT, (uint32_t)status);
}
