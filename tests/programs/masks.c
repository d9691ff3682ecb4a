/* Masks and actions of signals that a thread raises itself. */
#define _GNU_SOURCE
#include <errno.h>
#include <pthread.h>
#include <setjmp.h>
#include <signal.h>
#include <stdint.h>
#include <stdio.h>
#include <string.h>
#include <unistd.h>

static _Thread_local volatile sig_atomic_t handled, others;

static void count(int number) {
    if (number == SIGUSR1) handled++;
    else others++;
}

static void tell(int number, siginfo_t *told, void *context) {
    (void)context;
    printf("told of %d: %d\n", number == SIGUSR2, told->si_signo == SIGUSR2);
}

/* Raises what its mask blocks, and another one, which stands behind it. */
static void raises(int number) {
    sigset_t blocked;
    int before = others;
    pthread_sigmask(SIG_BLOCK, NULL, &blocked);
    raise(SIGUSR1);
    raise(SIGHUP);
    printf("in the handler: %d blocked itself, %d another, %d handled\n", sigismember(&blocked, number),
           sigismember(&blocked, SIGHUP), (int)others - before);
}

static void set(int number, void (*handler)(int), int flags, int masked) {
    struct sigaction action;
    memset(&action, 0, sizeof action);
    action.sa_handler = handler;
    action.sa_flags = flags;
    sigemptyset(&action.sa_mask);
    if (masked) sigaddset(&action.sa_mask, masked);
    if (sigaction(number, &action, NULL)) printf("no action\n");
}

static sigset_t one(int number) {
    sigset_t set;
    sigemptyset(&set);
    sigaddset(&set, number);
    return set;
}

static void masks(void) {
    sigset_t user = one(SIGUSR1), all, old, pending;
    set(SIGUSR1, count, 0, 0);
    printf("block: %d\n", pthread_sigmask(SIG_BLOCK, &user, NULL));
    for (int i = 0; i < 3; i++) raise(SIGUSR1);
    sigpending(&pending);
    printf("handled %d, pending %d %d\n", (int)handled, sigismember(&pending, SIGUSR1), sigismember(&pending, SIGUSR2));
    printf("unblock: %d\n", sigprocmask(SIG_UNBLOCK, &user, &old));
    sigpending(&pending);
    printf("handled %d, pending %d, was blocked %d\n", (int)handled, sigismember(&pending, SIGUSR1), sigismember(&old, SIGUSR1));
    sigfillset(&all);
    pthread_sigmask(SIG_SETMASK, &all, NULL);
    pthread_sigmask(SIG_SETMASK, NULL, &old);
    printf("of all: KILL %d, STOP %d, TERM %d\n", sigismember(&old, SIGKILL), sigismember(&old, SIGSTOP), sigismember(&old, SIGTERM));
    sigdelset(&old, SIGTERM);
    printf("without: %d\n", sigismember(&old, SIGTERM));
    sigemptyset(&all);
    pthread_sigmask(SIG_SETMASK, &all, NULL);
}

static void actions(void) {
    struct sigaction old, action;
    set(SIGHUP, count, 0, 0);
    set(SIGUSR1, count, 0, 0);
    set(SIGTERM, raises, 0, SIGHUP);
    raise(SIGTERM);
    printf("behind it: %d\n", (int)others);
    set(SIGTERM, raises, SA_NODEFER, 0);
    raise(SIGTERM);
    set(SIGUSR1, count, SA_RESETHAND, 0);
    raise(SIGUSR1);
    sigaction(SIGUSR1, NULL, &old);
    printf("once: %d\n", old.sa_handler == SIG_DFL);
    memset(&action, 0, sizeof action);
    action.sa_sigaction = tell;
    action.sa_flags = SA_SIGINFO;
    sigaction(SIGUSR2, &action, NULL);
    raise(SIGUSR2);
    signal(SIGPIPE, SIG_IGN);
    printf("ignored: %d %d\n", raise(SIGPIPE), raise(SIGCHLD));
    printf("KILL: %d", sigaction(SIGKILL, &action, NULL));
    printf(" %d, ", errno == EINVAL);
    printf("none: %d", sigaction(1000, &action, NULL));
    printf(" %d, ", errno == EINVAL);
    printf("way: %d\n", pthread_sigmask(1000, &old.sa_mask, NULL) == EINVAL);
}

static sigjmp_buf back;

static void leap(int number) { siglongjmp(back, number == SIGUSR2 ? 2 : 1); }

/* Out of a handler, with the mask that was kept, and without: then the handler's signal stays blocked. */
static void jumps(void) {
    sigset_t now;
    set(SIGUSR2, leap, 0, SIGHUP);
    for (int with_mask = 1; with_mask >= 0; with_mask--) {
        volatile int kept = with_mask;
        int from = sigsetjmp(back, kept);
        if (from == 0) raise(SIGUSR2);
        pthread_sigmask(SIG_BLOCK, NULL, &now);
        printf("back from %d, blocked %d %d\n", from, sigismember(&now, SIGUSR2), sigismember(&now, SIGHUP));
    }
    sigemptyset(&now);
    pthread_sigmask(SIG_SETMASK, &now, NULL);
}

/* A new thread has the mask of who made it, and nothing pending. */
static void *thread(void *expected) {
    sigset_t now, pending, user = one(SIGUSR1);
    handled = 0;
    pthread_sigmask(SIG_BLOCK, NULL, &now);
    sigpending(&pending);
    int is_right = sigismember(&now, SIGUSR1) == (int)(intptr_t)expected && !sigismember(&pending, SIGUSR1);
    raise(SIGUSR1);
    int before = handled;
    pthread_sigmask(SIG_UNBLOCK, &user, NULL);
    return (void *)(intptr_t)(is_right ? 10 * before + handled : -1);
}

static void threads(void) {
    sigset_t user = one(SIGUSR1);
    set(SIGUSR1, count, 0, 0);
    for (int is_blocked = 0; is_blocked < 2; is_blocked++) {
        pthread_t ids[3];
        if (is_blocked) {
            pthread_sigmask(SIG_BLOCK, &user, NULL);
            raise(SIGUSR1);
        }
        for (int i = 0; i < 3; i++) pthread_create(&ids[i], NULL, thread, (void *)(intptr_t)is_blocked);
        for (int i = 0; i < 3; i++) {
            void *result;
            pthread_join(ids[i], &result);
            printf("%d ", (int)(intptr_t)result);
        }
        printf("with %d blocked\n", is_blocked);
    }
}

int main(void) {
    masks();
    actions();
    jumps();
    threads();
    return 0;
}
