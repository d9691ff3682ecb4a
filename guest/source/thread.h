/* What the C side and the assembler side of threads share. */
#ifndef GUEST_THREAD_H
#define GUEST_THREAD_H

#define SPARE_STACK_BYTES 512
#define THREAD_NAME_BYTES 16

/* Where a record has these. */
#define MEMORY_AT 0
#define GUARD_AT 4
#define STACK_AT 8
#define STACK_SIZE_AT 16

#ifndef __ASSEMBLER__

#include <pthread.h>
#include <stdbool.h>
#include <stddef.h>
#include <stdint.h>

/* A new thread's memory is one block of the heap: a guard, its stack, this record, and its thread-local variables. Where the
   program gave the stack, the guard lies at its begin and the block has the others. */
struct thread {
    void *memory; /* the block; NULL for the first thread */
    uint32_t *guard; /* below the stack */
    void *stack; /* its lowest byte, as attributes tell it */
    void *stack_end;
    size_t stack_size;
    uint32_t blocked; /* signals, see signal.c; a new thread has those of who made it */
    char name[THREAD_NAME_BYTES];
    void *(*start)(void *);
    void *argument;
    void *locals; /* x4 while the thread runs */
    bool is_detached;
    bool has_left; /* it never touches its memory again */
    bool has_destroyed; /* the round of destructors that it is in has called one */
    unsigned char rounds; /* of destructors, that are over */
    unsigned char next_key; /* with which the round goes on */
};

/* Where tools find it (docs/ABI.md). */
_Static_assert(offsetof(struct thread, name) == 24, "the name's place in a record");

/* Where thread_end.S does. */
_Static_assert(offsetof(struct thread, memory) == MEMORY_AT && offsetof(struct thread, guard) == GUARD_AT &&
                   offsetof(struct thread, stack) == STACK_AT && offsetof(struct thread, stack_size) == STACK_SIZE_AT,
               "the places in a record");

/* The size of thread-local variables and their alignment, as addresses of these symbols. */
extern char __guest_locals_size[], __guest_locals_align[];

/* Makes one thread's copy of the thread-local variables. */
void __guest_set_locals(void *locals);

/* The record of the calling thread. */
struct thread *__guest_self(void);

/* How far a thread has come. One that has left has only to end: who joins it then waits for no other thing. */
enum stage { NO_THREAD, GOES_ON, IS_DETACHED, HAS_LEFT };
enum stage __guest_stage_of(pthread_t id);

/* The clean-up handler of every thread that runs last. */
void __guest_thread_end(void *thread);

/* Calls the destructors of a thread's values, in rounds. */
void __guest_run_destructors(struct thread *thread);

/* Gives the first thread its last handler, as every other thread has it.
   Its stack lies between its guard and `stack_end`. */
void __guest_enter_first_thread(uint32_t *guard, const char *stack_end);

#endif
#endif
