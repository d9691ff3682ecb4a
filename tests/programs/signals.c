/* Signals as ISO C has them: a handler runs where `raise` or `abort` calls it, in the thread that does. */
#include <errno.h>
#include <pthread.h>
#include <setjmp.h>
#include <signal.h>
#include <stdio.h>
#include <stdlib.h>

static volatile sig_atomic_t count, last, depth, deepest;
static _Thread_local int own;
static jmp_buf back;

static void note(int number) {
    count++;
    last = number;
    own++;
}

static void ask_again(int number) {
    count++;
    if (++depth > deepest) deepest = depth;
    if (count < 3) raise(number); /* waits for the end of this handler */
    depth--;
}

static void ask_another(int number) {
    raise(number == SIGINT ? SIGTERM : SIGINT);
    count++;
}

static void leap(int number) { longjmp(back, number == SIGABRT ? 1 : 2); }

static void handlers(void) {
    static const int numbers[] = {SIGABRT, SIGFPE, SIGILL, SIGINT, SIGSEGV, SIGTERM};
    for (int i = 0; i < 6; i++) signal(numbers[i], SIG_DFL); /* a shell starts what runs in the background with some ignored */
    for (int i = 0; i < 6; i++) {
        int is_default = signal(numbers[i], note) == SIG_DFL;
        int result = raise(numbers[i]);
        printf("%d: default %d, result %d, handler %d, calls %d\n", i, is_default, result, last == numbers[i], (int)count);
        raise(numbers[i]); /* the handler stays */
        printf("kept %d\n", signal(numbers[i], SIG_IGN) == note);
        printf("ignored %d, %d\n", raise(numbers[i]), (int)count);
        printf("it was %d\n", signal(numbers[i], SIG_DFL) == SIG_IGN);
    }
}

static void nested(void) {
    count = 0;
    signal(SIGINT, ask_again);
    raise(SIGINT);
    printf("three calls: %d, depth %d\n", (int)count, (int)deepest);
    count = 0;
    signal(SIGINT, ask_another);
    signal(SIGTERM, note);
    raise(SIGINT);
    printf("another within: %d, last %d\n", (int)count, last == SIGTERM);
}

static void errors(void) {
    errno = 0;
    int is_error = signal(9999, note) == SIG_ERR;
    printf("no such signal: %d, %d\n", is_error, errno == EINVAL);
    errno = 0;
    int result = raise(9999);
    printf("no such signal: %d, %d\n", result, errno == EINVAL);
}

static void *thread(void *result) {
    for (int i = 0; i < 5; i++) raise(SIGTERM);
    *(int *)result = own;
    return NULL;
}

static void threads(void) {
    pthread_t ids[3];
    int results[3];
    own = 0;
    for (int i = 0; i < 3; i++) pthread_create(&ids[i], NULL, thread, &results[i]);
    for (int i = 0; i < 3; i++) pthread_join(ids[i], NULL);
    printf("in threads: %d %d %d, here %d\n", results[0], results[1], results[2], own);
}

int main(void) {
    handlers();
    nested();
    errors();
    threads();
    signal(SIGABRT, leap);
    int number = setjmp(back);
    if (number == 0) abort();
    printf("back from abort: %d\n", number);
    return 0;
}
