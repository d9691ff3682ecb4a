/* Calls that write are cancellation points before their first byte; what formats a text for the program is none. */
#include <pthread.h>
#include <stdio.h>
#include <unistd.h>

/* Each with a request that is pending: what it writes stands in the output only where it isn't a point. */
static void *by_write(void *unused) { return write(1, "no\n", 3), unused; }

static void *by_text(void *unused) {
    char text[20];
    snprintf(text, sizeof text, "%s", "a text is none"); /* writes to no stream */
    pthread_setcancelstate(PTHREAD_CANCEL_DISABLE, NULL);
    printf("%s\n", text);
    return unused;
}

static void *in_a_loop(void *unused) {
    for (;;) {
        fputs("", stderr);
        fprintf(stderr, "%s", "");
        write(2, "", 0);
    }
    return unused;
}

struct starting {
    void *(*act)(void *);
    pthread_barrier_t both;
};

/* Acts once the request is there. */
static void *start(void *given) {
    struct starting *starting = given;
    pthread_setcancelstate(PTHREAD_CANCEL_DISABLE, NULL);
    pthread_barrier_wait(&starting->both);
    pthread_barrier_wait(&starting->both);
    pthread_setcancelstate(PTHREAD_CANCEL_ENABLE, NULL);
    return starting->act(NULL);
}

static void run(const char *name, void *(*act)(void *)) {
    struct starting starting = {.act = act};
    pthread_t id;
    void *value;
    pthread_barrier_init(&starting.both, NULL, 2);
    pthread_create(&id, NULL, start, &starting);
    pthread_barrier_wait(&starting.both);
    pthread_cancel(id);
    pthread_barrier_wait(&starting.both);
    pthread_join(id, &value);
    pthread_barrier_destroy(&starting.both);
    printf("%s: %s\n", name, value == PTHREAD_CANCELED ? "cancelled" : "ended");
}

int main(void) {
    setvbuf(stdout, NULL, _IONBF, 0);
    run("write", by_write);
    run("a text", by_text);
    run("a loop", in_a_loop);
    return 0;
}
