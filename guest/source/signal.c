/*
 * Signals that a thread raises itself: none comes from outside or from another thread, so a handler runs where `raise` or `abort`
 * calls it, or where a call unblocks what was raised.
 *
 * This file is linked where a program asks for one of its calls, and no other has to do with signals: see guest/cc. Then its
 * `abort` stands for that of main.c.
 */
#include <signal.h>
#include "locks.h"
#include "thread.h"
#include <errno.h>
#include <setjmp.h>
#include <stdlib.h>
#include <unistd.h>

enum { STATUS_OF_SIGNALS = 128 };

typedef void (*handler)(int);

#define BIT(number) (UINT32_C(1) << (number))

/* Of 7 and 29 POSIX has no name, and 0 is none. */
static const uint32_t signals = ~(BIT(0) | BIT(7) | BIT(29));
static const uint32_t unblockable = BIT(SIGKILL) | BIT(SIGSTOP);

/* Those that do nothing without a handler: they are ignored, or would stop a process. */
static const uint32_t ignored = BIT(SIGURG) | BIT(SIGCONT) | BIT(SIGCHLD) | BIT(SIGWINCH);
static const uint32_t stops = BIT(SIGSTOP) | BIT(SIGTSTP) | BIT(SIGTTIN) | BIT(SIGTTOU);

/* By the signal's number, under the lock of queues: what it does, and how often those that were pending, in any thread, were
   discarded. */
static struct sigaction actions[NSIG];
static uint32_t discards[NSIG];

/* What the thread has raised while it was blocked, and the count of discards then: where that has grown, it isn't pending any more. */
static _Thread_local uint32_t raised, discards_then[NSIG];

static void lock(void) { __guest_take_lock(&__guest_queue_lock); }
static void unlock(void) { __guest_leave_lock(&__guest_queue_lock); }

static bool is_signal(int number) { return number > 0 && number < NSIG && (signals & BIT(number)); }

static int failed(int error) {
    errno = error;
    return -1;
}

/* --- Actions ------------------------------------------------------------------------------------------------------ */

static bool has_handler(const struct sigaction *action) {
    return action->sa_handler != SIG_DFL && action->sa_handler != SIG_IGN;
}

static bool is_ignored(int number, const struct sigaction *action) {
    return action->sa_handler == SIG_IGN || (action->sa_handler == SIG_DFL && (ignored & BIT(number)));
}

/* Gives the action before, and sets another one if there is one. What is pending of a signal that is ignored then is discarded
   (POSIX, XSH 2.4.3). */
static struct sigaction change(int number, const struct sigaction *action) {
    lock();
    struct sigaction old = actions[number];
    if (action) actions[number] = *action;
    if (action && is_ignored(number, action)) discards[number]++;
    unlock();
    return old;
}

/* Gives the action, and takes a handler away that is to run once. */
static struct sigaction take(int number) {
    lock();
    struct sigaction action = actions[number];
    if (has_handler(&action) && (action.sa_flags & SA_RESETHAND)) {
        actions[number].sa_handler = SIG_DFL;
        actions[number].sa_flags &= ~SA_SIGINFO;
    }
    unlock();
    return action;
}

int sigaction(int number, const struct sigaction *restrict action, struct sigaction *restrict old) {
    if (!is_signal(number) || (action && (unblockable & BIT(number)))) return failed(EINVAL);
    struct sigaction before = change(number, action);
    if (old) *old = before;
    return 0;
}

handler signal(int number, handler chosen) {
    struct sigaction action = {.sa_handler = chosen, .sa_flags = SA_RESTART}, old;
    if (chosen == SIG_ERR) errno = EINVAL;
    if (chosen == SIG_ERR || sigaction(number, &action, &old) != 0) return SIG_ERR;
    return old.sa_handler;
}

/* --- Raising ------------------------------------------------------------------------------------------------------ */

static void call(int number, const struct sigaction *action) {
    siginfo_t told = {.si_signo = number, .si_code = SI_USER, .si_pid = getpid()};
    struct thread *self = __guest_self();
    uint32_t before = self->blocked;
    self->blocked |= (action->sa_mask & ~unblockable) | (action->sa_flags & SA_NODEFER ? 0 : BIT(number));
    if (action->sa_flags & SA_SIGINFO) action->sa_sigaction(number, &told, NULL);
    else action->sa_handler(number);
    self->blocked = before;
}

/* Does what the signal does, once. */
static void act(int number) {
    struct sigaction action = take(number);
    if (has_handler(&action)) call(number, &action);
    else if (action.sa_handler == SIG_DFL && !((ignored | stops) & BIT(number))) _exit(STATUS_OF_SIGNALS + number);
}

/* What the thread has raised and hasn't acted on yet. */
static uint32_t pending(void) {
    if (!raised) return 0;
    lock();
    for (int number = 1; number < NSIG; number++) {
        if (discards_then[number] != discards[number]) raised &= ~BIT(number);
    }
    unlock();
    return raised;
}

/* A signal to stop discards what is pending of SIGCONT, and that one discards those (POSIX, XSH 2.4.1). */
static void add(int number) {
    lock();
    for (uint32_t against = number == SIGCONT ? stops : stops & BIT(number) ? BIT(SIGCONT) : 0; against; against &= against - 1) {
        discards[__builtin_ctz(against)]++;
    }
    raised |= BIT(number);
    discards_then[number] = discards[number];
    unlock();
}

/* Acts on what the thread has raised and doesn't block, the least number first. */
static void act_on_raised(void) {
    uint32_t waiting;
    while ((waiting = pending() & ~__guest_self()->blocked)) {
        int number = __builtin_ctz(waiting);
        raised &= ~BIT(number);
        act(number);
    }
}

int raise(int number) {
    if (number == 0) return 0; /* no signal: a look whether the thread is there, as in pthread_kill */
    if (!is_signal(number)) return failed(EINVAL);
    add(number);
    act_on_raised();
    return 0;
}

int pthread_kill(pthread_t id, int number) {
    if (__guest_stage_of(id) == NO_THREAD) return ESRCH;
    if (number == 0) return 0;
    return id == pthread_self() && raise(number) == 0 ? 0 : EINVAL;
}

/* C11, 7.22.4.1: it ends the process, but where a handler of SIGABRT doesn't return. */
void abort(void) {
    __guest_self()->blocked &= ~BIT(SIGABRT);
    act(SIGABRT);
    _exit(STATUS_OF_SIGNALS + SIGABRT);
}

/* --- Masks -------------------------------------------------------------------------------------------------------- */

int sigemptyset(sigset_t *set) {
    *set = 0;
    return 0;
}

int sigfillset(sigset_t *set) {
    *set = signals;
    return 0;
}

int sigaddset(sigset_t *set, int number) {
    if (!is_signal(number)) return failed(EINVAL);
    *set |= BIT(number);
    return 0;
}

int sigdelset(sigset_t *set, int number) {
    if (!is_signal(number)) return failed(EINVAL);
    *set &= ~BIT(number);
    return 0;
}

int sigismember(const sigset_t *set, int number) { return is_signal(number) ? (*set & BIT(number)) != 0 : failed(EINVAL); }

int sigpending(sigset_t *set) {
    *set = pending() & __guest_self()->blocked;
    return 0;
}

int pthread_sigmask(int how, const sigset_t *restrict set, sigset_t *restrict old) {
    struct thread *self = __guest_self();
    uint32_t before = self->blocked;
    if (set && how != SIG_BLOCK && how != SIG_UNBLOCK && how != SIG_SETMASK) return EINVAL;
    if (set) {
        uint32_t others = how == SIG_SETMASK ? 0 : before;
        self->blocked = (how == SIG_UNBLOCK ? others & ~*set : others | *set) & ~unblockable;
    }
    if (old) *old = before;
    act_on_raised();
    return 0;
}

int sigprocmask(int how, const sigset_t *restrict set, sigset_t *restrict old) {
    int error = pthread_sigmask(how, set, old);
    return error ? failed(error) : 0;
}

void __guest_keep_mask(sigjmp_buf place, int with_mask) {
    place[0].has_mask = with_mask;
    place[0].mask = __guest_self()->blocked;
}

void siglongjmp(sigjmp_buf place, int value) {
    sigset_t mask = place[0].mask;
    if (place[0].has_mask) pthread_sigmask(SIG_SETMASK, &mask, NULL);
    longjmp(place[0].registers, value);
}
