/*
 * Threads: their memory, their begin and their end.
 *
 * One lock guards the table of threads, their count and the marks of each record. A joined thread's memory is freed by
 * who joined it: the thread has ended then. A detached thread frees its own, standing on a spare stack: see
 * thread_end.S. One that is detached after it has left its memory has it freed by who detaches it.
 */
#include "thread.h"
#include "calls.h"
#include "heap.h"
#include "locks.h"
#include <stdlib.h>
#include <string.h>

enum { LEAST_STACK = 8192, USUAL_STACK = 0 };

static size_t usual_stack(void) { return __guest_usual_stack(__guest_free_bytes(), LEAST_STACK); }

static struct thread first_thread;
static struct thread *threads[PTHREAD_THREADS_MAX + 1] = {[1] = &first_thread};
static unsigned thread_count = 1;

/* The same table by a name that no program has: by it tools find the records and the names in them, without debugging
   material (docs/ABI.md). */
extern struct thread *__guest_threads[PTHREAD_THREADS_MAX + 1] __attribute__((alias("threads")));

int pthread_attr_init(pthread_attr_t *attributes) {
    *attributes = (pthread_attr_t){.detach_state = PTHREAD_CREATE_JOINABLE, .stack_size = USUAL_STACK};
    return 0;
}

int pthread_attr_destroy(pthread_attr_t *attributes) {
    (void)attributes;
    return 0;
}

int pthread_attr_setdetachstate(pthread_attr_t *attributes, int state) {
    if (state != PTHREAD_CREATE_JOINABLE && state != PTHREAD_CREATE_DETACHED) return EINVAL;
    attributes->detach_state = state;
    return 0;
}

int pthread_attr_getdetachstate(const pthread_attr_t *attributes, int *state) {
    *state = attributes->detach_state;
    return 0;
}

int pthread_attr_setstacksize(pthread_attr_t *attributes, size_t bytes) {
    if (bytes < PTHREAD_STACK_MIN) return EINVAL;
    attributes->stack_size = bytes;
    return 0;
}

int pthread_attr_getstacksize(const pthread_attr_t *attributes, size_t *bytes) {
    *bytes = attributes->stack_size == USUAL_STACK ? usual_stack() : attributes->stack_size;
    return 0;
}

int pthread_attr_setstack(pthread_attr_t *attributes, void *stack, size_t bytes) {
    if (!stack || bytes < PTHREAD_STACK_MIN) return EINVAL;
    attributes->stack = stack;
    attributes->stack_size = bytes;
    return 0;
}

int pthread_attr_getstack(const pthread_attr_t *attributes, void **stack, size_t *bytes) {
    *stack = attributes->stack;
    *bytes = attributes->stack_size;
    return 0;
}

int pthread_attr_setguardsize(pthread_attr_t *attributes, size_t bytes) {
    (void)attributes, (void)bytes;
    return 0;
}

int pthread_attr_getguardsize(const pthread_attr_t *attributes, size_t *bytes) {
    (void)attributes;
    *bytes = GUARD_BYTES;
    return 0;
}

int pthread_attr_setscope(pthread_attr_t *attributes, int scope) {
    (void)attributes;
    return scope == PTHREAD_SCOPE_SYSTEM ? 0 : scope == PTHREAD_SCOPE_PROCESS ? ENOTSUP : EINVAL;
}

/* The alignment is a power of two. */
static uintptr_t round_down(uintptr_t address, uintptr_t alignment) { return address & -alignment; }

/* Takes a block of so many bytes, and what a record and thread-local variables need besides. The record lies behind these
   bytes. NULL: the heap has no room. */
static struct thread *new_record(size_t before) {
    uintptr_t locals_bytes = (uintptr_t)__guest_locals_size, locals_align = (uintptr_t)__guest_locals_align;
    size_t others = sizeof(struct thread) + STACK_ALIGNMENT + locals_bytes + locals_align;
    if (before > SIZE_MAX - others) return NULL;
    char *memory = __guest_take(before + others);
    if (!memory) return NULL;

    uintptr_t locals = round_down((uintptr_t)memory + before + others - locals_bytes, locals_align);
    struct thread *thread = (struct thread *)round_down(locals - sizeof *thread, STACK_ALIGNMENT);
    *thread = (struct thread){.memory = memory, .locals = (void *)locals};
    __guest_set_locals(thread->locals);
    return thread;
}

static void set_stack(struct thread *thread, uint32_t *guard, void *stack, void *stack_end, size_t bytes) {
    thread->guard = guard;
    thread->stack = stack;
    thread->stack_end = stack_end;
    thread->stack_size = bytes;
    __guest_write_guard(guard);
}

/* The block's parts, from its end down: thread-local variables, the record, the stack, its guard. */
static struct thread *new_thread(size_t stack_bytes) {
    if (stack_bytes > SIZE_MAX - GUARD_BYTES) return NULL;
    struct thread *thread = new_record(GUARD_BYTES + stack_bytes);
    if (thread) set_stack(thread, thread->memory, (char *)thread->memory + GUARD_BYTES, thread, stack_bytes);
    return thread;
}

/* A thread on a stack of the program's own. */
static struct thread *new_thread_on(char *stack, size_t stack_bytes) {
    struct thread *thread = new_record(0);
    uintptr_t guard = round_down((uintptr_t)stack + STACK_ALIGNMENT - 1, STACK_ALIGNMENT);
    void *stack_end = (void *)round_down((uintptr_t)stack + stack_bytes, STACK_ALIGNMENT);
    if (thread) set_stack(thread, (uint32_t *)guard, stack, stack_end, stack_bytes);
    return thread;
}

/* A thread for which nobody asked a size: where no piece of the heap has room for the usual stack, half of it, and so on. */
static struct thread *new_usual_thread(void) {
    size_t bytes = usual_stack();
    struct thread *thread;
    while (!(thread = new_thread(bytes)) && bytes > LEAST_STACK) {
        bytes = bytes / 2 > LEAST_STACK ? bytes / 2 : LEAST_STACK;
    }
    return thread;
}

/* What a block of a thread has besides its stack and thread-local variables: for guest/image, which tells how many pages threads take. */
#define BYTES_BESIDES 140
#define TEXT_OF(number) #number
#define TEXT(number) TEXT_OF(number)
_Static_assert(GUARD_BYTES + sizeof(struct thread) + STACK_ALIGNMENT == BYTES_BESIDES, "BYTES_BESIDES isn't what a block has");
__asm__(".globl __guest_thread_bytes\n\t.set __guest_thread_bytes, " TEXT(BYTES_BESIDES));

/* A detached thread that frees its memory stands on the spare stack of thread_end.S, which is guarded as any other. */
static void make_spare_stack(void) {
    extern uint32_t __guest_spare_guard[];
    extern char __guest_first_locals[], __guest_spare_locals[];
    size_t place = (size_t)((char *)&__guest_guard - __guest_first_locals);
    __guest_set_locals(__guest_spare_locals);
    *(const uint32_t **)(__guest_spare_locals + place) = __guest_spare_guard;
    __guest_write_guard(__guest_spare_guard);
}

void __guest_enter_first_thread(uint32_t *guard, const char *stack_end) {
    make_spare_stack();
    first_thread.guard = guard;
    first_thread.stack = (char *)guard + GUARD_BYTES;
    first_thread.stack_size = (size_t)(stack_end - (char *)first_thread.stack);
    __guest_cleanup_push(__guest_thread_end, &first_thread);
}

/* Not a part of `begin`, where the compiler may take x4 for what it was before. */
__attribute__((noinline)) static void set_guard(const struct thread *thread) { __guest_guard = thread->guard; }

/* Where a new thread begins, with nothing but its stack and its argument in registers. */
static void begin(struct thread *thread) {
    __asm__ volatile("mv tp, %0" : : "r"(thread->locals) : "memory");
    set_guard(thread);
    __guest_cleanup_push(__guest_thread_end, thread);
    /* Waits for who created it, so that its id is stored and its place in the table is filled. */
    __guest_take_lock(&__guest_threads_lock);
    __guest_leave_lock(&__guest_threads_lock);
    pthread_exit(thread->start(thread->argument));
}

int pthread_create(pthread_t *restrict id, const pthread_attr_t *restrict attributes, void *(*start)(void *),
                   void *restrict argument) {
    size_t bytes = attributes ? attributes->stack_size : USUAL_STACK;
    void *stack = attributes ? attributes->stack : NULL;
    struct thread *thread = stack                ? new_thread_on(stack, bytes)
                            : bytes == USUAL_STACK ? new_usual_thread()
                                                   : new_thread(bytes);
    if (!thread) return EAGAIN;
    thread->start = start;
    thread->argument = argument;
    thread->is_detached = attributes && attributes->detach_state == PTHREAD_CREATE_DETACHED;
    thread->blocked = __guest_self()->blocked;

    __guest_take_lock(&__guest_threads_lock);
    struct answer made =
        runtime(CALL_CREATE, (uint32_t)begin, (uint32_t)thread, (uint32_t)thread->stack_end, thread->is_detached);
    if (made.result == 0) {
        threads[made.value] = thread;
        thread_count++;
        *id = made.value;
    }
    __guest_leave_lock(&__guest_threads_lock);

    if (made.result != 0) free(thread->memory);
    return error_of(made.result);
}

/* The record of a thread, by its id, under the lock; of no meaning where the runtime doesn't know the id. */
static struct thread *thread_of(pthread_t id) { return id <= PTHREAD_THREADS_MAX ? threads[id] : NULL; }

/* Its own place in the table changes only once it has left. */
struct thread *__guest_self(void) { return threads[pthread_self()]; }

/* Does something with the record of a thread that the runtime knows and that hasn't left, under the lock. */
static int with_record(pthread_t id, int (*act)(struct thread *thread, void *with), void *with) {
    __guest_take_lock(&__guest_threads_lock);
    struct thread *thread = thread_of(id);
    int error = thread && !thread->has_left ? act(thread, with) : ESRCH;
    __guest_leave_lock(&__guest_threads_lock);
    return error;
}

static int set_name(struct thread *thread, void *name) {
    strcpy(thread->name, name);
    return 0;
}

static int get_name(struct thread *thread, void *name) {
    strcpy(name, thread->name);
    return 0;
}

int pthread_setname_np(pthread_t id, const char *name) {
    return strlen(name) < THREAD_NAME_BYTES ? with_record(id, set_name, (void *)name) : ERANGE;
}

int pthread_getname_np(pthread_t id, char *name, size_t bytes) {
    return bytes >= THREAD_NAME_BYTES ? with_record(id, get_name, name) : ERANGE;
}

static int get_attributes(struct thread *thread, void *to) {
    pthread_attr_t *attributes = to;
    attributes->detach_state = thread->is_detached ? PTHREAD_CREATE_DETACHED : PTHREAD_CREATE_JOINABLE;
    attributes->stack_size = thread->stack_size;
    attributes->stack = thread->stack;
    return 0;
}

int pthread_getattr_np(pthread_t id, pthread_attr_t *attributes) {
    return with_record(id, get_attributes, attributes);
}

/* Takes the record of a thread that was joined out of the table, where its id isn't a new thread's yet. */
static void forget(pthread_t id, const struct thread *thread) {
    __guest_take_lock(&__guest_threads_lock);
    if (threads[id] == thread) threads[id] = NULL;
    __guest_leave_lock(&__guest_threads_lock);
}

/* The record is looked up before the join, since afterwards the id may be a new thread's. */
int pthread_join(pthread_t id, void **value) {
    __guest_take_lock(&__guest_threads_lock);
    struct thread *thread = thread_of(id);
    __guest_leave_lock(&__guest_threads_lock);

    struct answer joined = runtime(CALL_JOIN, id, 0, 0, 0);
    if (joined.result != 0) return error_of(joined.result);
    forget(id, thread);
    free(thread->memory);
    if (value) *value = (void *)joined.value;
    return 0;
}

int pthread_detach(pthread_t id) {
    void *left_memory = NULL;
    __guest_take_lock(&__guest_threads_lock);
    uint32_t result = runtime(CALL_DETACH, id, 0, 0, 0).result;
    if (result == 0) {
        struct thread *thread = thread_of(id);
        thread->is_detached = true;
        if (thread->has_left) {
            left_memory = thread->memory;
            threads[id] = NULL;
        }
    }
    free(left_memory); /* under the lock, as its own thread would free it */
    __guest_leave_lock(&__guest_threads_lock);
    return error_of(result);
}

/* Called by a thread that ends, under the lock. Answers the memory that it is to free, if any. The last thread goes on
   to the routines of atexit, and is still counted: these may make threads, and join them. */
void *__guest_thread_leave(struct thread *thread) {
    __guest_check_stack();
    if (thread_count == 1) {
        __guest_leave_lock(&__guest_threads_lock);
        exit(0);
    }
    thread_count--;
    thread->has_left = true;
    if (!thread->is_detached) return NULL;
    threads[pthread_self()] = NULL;
    return thread->memory;
}

void pthread_exit(void *value) {
    last_call(CALL_THREAD_EXIT, (uint32_t)value);
}

pthread_t pthread_self(void) { return runtime(CALL_SELF, 0, 0, 0, 0).result; }

extern const char __guest_locals_initial[], __guest_locals_initial_size[];

void __guest_set_locals(void *locals) {
    size_t initial = (size_t)__guest_locals_initial_size;
    memcpy(locals, __guest_locals_initial, initial);
    memset((char *)locals + initial, 0, (size_t)__guest_locals_size - initial);
}

/* One that has ended and wasn't joined yet is there still. */
enum stage __guest_stage_of(pthread_t id) {
    __guest_take_lock(&__guest_threads_lock);
    const struct thread *thread = thread_of(id);
    enum stage stage = !thread ? NO_THREAD : thread->has_left ? HAS_LEFT : thread->is_detached ? IS_DETACHED : GOES_ON;
    __guest_leave_lock(&__guest_threads_lock);
    return stage;
}
