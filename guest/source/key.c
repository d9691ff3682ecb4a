/*
 * Thread-specific data. The values are the runtime's; the destructors are called here, by the handler that every thread
 * runs last: the runtime's own would come behind it, when the thread has left its memory.
 */
#include "calls.h"
#include "fenced.h"
#include "thread.h"

static void (*destructors[PTHREAD_KEYS_MAX])(void *);

/* Atomic, since a thread may end while another one makes or deletes a key. */
static void (*destructor_of(pthread_key_t key))(void *) {
    return (void (*)(void *))load_word((const volatile uint32_t *)&destructors[key]);
}

static void set_destructor(pthread_key_t key, void (*destructor)(void *)) {
    store_word((volatile uint32_t *)&destructors[key], (uint32_t)destructor);
}

int pthread_key_create(pthread_key_t *key, void (*destructor)(void *)) {
    struct answer made = runtime(CALL_KEY_CREATE, 0, 0, 0, 0);
    if (made.result != 0) return error_of(made.result);
    set_destructor(made.value, destructor);
    *key = made.value;
    return 0;
}

/* The destructor goes first: once the key is deleted, its number may be a new key's. */
int pthread_key_delete(pthread_key_t key) {
    if (key < PTHREAD_KEYS_MAX) set_destructor(key, NULL);
    return error_of(runtime(CALL_KEY_DELETE, key, 0, 0, 0).result);
}

int pthread_setspecific(pthread_key_t key, const void *value) {
    return error_of(runtime(CALL_SETSPECIFIC, key, (uint32_t)value, 0, 0).result);
}

void *pthread_getspecific(pthread_key_t key) {
    struct answer got = runtime(CALL_GETSPECIFIC, key, 0, 0, 0);
    return got.result == 0 ? (void *)got.value : NULL;
}

/* Takes a value from the thread and gives it to its destructor, if there are both. A destructor that calls pthread_exit
   comes back to the thread's last handler, which is pushed again for that, and goes on where it was. */
static void destroy(struct thread *thread, pthread_key_t key) {
    void (*destructor)(void *) = destructor_of(key);
    void *value = destructor ? pthread_getspecific(key) : NULL;
    if (!value) return;
    pthread_setspecific(key, NULL);
    thread->has_destroyed = true;
    __guest_cleanup_push(__guest_thread_end, thread);
    destructor(value);
    __guest_cleanup_pop(0);
}

/* Goes on with the round. Answers whether a destructor was called in it. */
static bool end_round(struct thread *thread) {
    while (thread->next_key < PTHREAD_KEYS_MAX) destroy(thread, thread->next_key++);
    return thread->has_destroyed;
}

void __guest_run_destructors(struct thread *thread) {
    while (thread->rounds < PTHREAD_DESTRUCTOR_ITERATIONS && end_round(thread)) {
        thread->rounds++;
        thread->next_key = 0;
        thread->has_destroyed = false;
    }
}
