/* From the start to main, and from exit to the end of the process. */
#include "calls.h"
#include "heap.h"
#include "locks.h"
#include "stack.h"
#include "thread.h"
#include <stdlib.h>
#include <string.h>
#include <unistd.h>

int main(int count, char **arguments);

void __libc_init_array(void);

extern char __guest_first_locals[], __guest_heap[], __guest_pages_needed[];

/* Weak, since the address of another symbol is never 0 to the compiler. */
extern char __guest_first_stack_size[] __attribute__((weak));

enum { PAGE_BYTES = 4096, LEAST_FIRST_STACK = 16384, STATUS_OF_NO_ROOM = 126 };

/* What guest/image writes into the image: where the texts of arguments and environment are, each with a zero behind it,
   how many bytes they are, and how many texts of each. They lie on variables, which have to be zero at first. */
struct words {
    char *place;
    uint32_t bytes, arguments, variables;
};
__attribute__((section(".data.guest_words"), used)) volatile struct words __guest_words;

extern char **environ;
static char name[] = "guest";

/* Moves the texts to the begin of the heap. */
static void move_words(void) {
    char *place = __guest_words.place;
    size_t bytes = __guest_words.bytes, before_heap = (size_t)(__guest_heap - place);
    if (bytes == 0) return;
    memmove(__guest_heap, place, bytes);
    /* Not by memset: the thread-local variables aren't set yet. */
    for (volatile char *at = place; at < place + bytes && at < place + before_heap; at++) *at = 0;
}

#ifdef GUEST_FILES
#include "../files/given.h"

/* The heap begins behind files that lie in the image. */
static size_t heap_behind(size_t place) { return __guest_given.end ? (size_t)__guest_given.end : place; }
#else
static size_t heap_behind(size_t place) { return place; }
#endif

/* The two lists of main's, behind the texts, and where the heap begins behind them. */
struct lists {
    char **arguments, **variables, *end;
};

/* Fills a list from `text` on, and puts a NULL behind it. */
static char *fill(char **places, char *text, size_t count) {
    for (size_t i = 0; i < count; i++) {
        places[i] = text;
        text += strlen(text) + 1;
    }
    places[count] = NULL;
    return text;
}

static struct lists make_lists(void) {
    size_t arguments = __guest_words.arguments, variables = __guest_words.variables;
    char **first = (char **)(((uintptr_t)__guest_heap + __guest_words.bytes + 15) & -(uintptr_t)16);
    struct lists lists = {first, first + arguments + 2, (char *)heap_behind((size_t)(first + arguments + variables + 3))};
    first[0] = name;
    fill(lists.variables, fill(first + 1, __guest_heap, arguments), variables);
    return lists;
}

/* Says so where the disk was formatted with fewer pages than the program needs. */
static void check_memory(const char *memory_end) {
    size_t words = __guest_words.bytes + 4 * (__guest_words.arguments + __guest_words.variables + 4) + 16;
    size_t pages = (heap_behind((size_t)__guest_heap + words) + LEAST_FIRST_STACK + PAGE_BYTES - 1) / PAGE_BYTES;
    if (pages < (size_t)__guest_pages_needed) pages = (size_t)__guest_pages_needed;
    if ((size_t)memory_end >= pages * PAGE_BYTES) return;
    __guest_say("this guest needs ");
    __guest_say_number(pages);
    __guest_say(" pages at least: format its disk with --pages\n");
    __guest_stop(STATUS_OF_NO_ROOM);
}

/* The first thread's guard, between the heap and its stack. */
static uint32_t *make_first_guard(char *memory_end, size_t free) {
    size_t stack_bytes = (size_t)__guest_first_stack_size;
    if (stack_bytes == 0) stack_bytes = __guest_usual_stack(free, LEAST_FIRST_STACK);
    uint32_t *guard = (uint32_t *)((uintptr_t)(memory_end - stack_bytes) & -(uintptr_t)STACK_ALIGNMENT);
    __guest_write_guard(guard);
    return guard;
}

void __guest_main(char *memory_end) {
    check_memory(memory_end);
    move_words();
    struct lists lists = make_lists();
    __guest_set_locals(__guest_first_locals);
    uint32_t *guard = make_first_guard(memory_end, (size_t)(memory_end - lists.end));
    __guest_guard = guard;
    __guest_set_heap(lists.end, (char *)guard);
    __guest_make_locks();
    __guest_enter_first_thread(guard, memory_end);
    if (*lists.variables) environ = lists.variables;
    __libc_init_array();
    exit(main(1 + (int)__guest_words.arguments, lists.arguments));
}

void _exit(int status) {
    __guest_check_stack();
    __guest_stop(status);
}

/* As a shell tells of a process that SIGABRT ended. Weak, since a program with signals has that of signal.c. */
__attribute__((weak)) void abort(void) { _exit(134); }
