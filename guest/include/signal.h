/*
 * Signals of a guest: those that a thread raises itself.
 *
 * A handler runs where `raise` or `abort` calls it, or where a call unblocks what was raised, in the thread that does; from outside
 * and from other threads none ever comes, also not by a fault. A handler stays until another one is set. While it runs, what the
 * thread raises of its signal waits for its end. Masks are each thread's own, as POSIX has them.
 */
#ifndef GUEST_SIGNAL_H
#define GUEST_SIGNAL_H

#pragma GCC system_header

#include <sys/types.h>

#ifdef __cplusplus
extern "C" {
#endif

typedef int sig_atomic_t;

/* Without a handler a signal ends the process, with the status 128 and its number, as a shell tells of it; those marked with
   "nothing" do nothing. The numbers are those of the C library. */
#define SIGHUP 1
#define SIGINT 2
#define SIGQUIT 3
#define SIGILL 4
#define SIGTRAP 5
#define SIGABRT 6
#define SIGFPE 8
#define SIGKILL 9 /* no handler, never blocked */
#define SIGBUS 10
#define SIGSEGV 11
#define SIGSYS 12
#define SIGPIPE 13
#define SIGALRM 14
#define SIGTERM 15
#define SIGURG 16  /* nothing */
#define SIGSTOP 17 /* nothing; no handler, never blocked */
#define SIGTSTP 18 /* nothing */
#define SIGCONT 19 /* nothing */
#define SIGCHLD 20 /* nothing */
#define SIGTTIN 21 /* nothing */
#define SIGTTOU 22 /* nothing */
#define SIGPOLL 23
#define SIGIO SIGPOLL
#define SIGXCPU 24
#define SIGXFSZ 25
#define SIGVTALRM 26
#define SIGPROF 27
#define SIGWINCH 28 /* nothing */
#define SIGUSR1 30
#define SIGUSR2 31
#define NSIG 32

#define SIG_DFL ((void (*)(int))0)
#define SIG_IGN ((void (*)(int))1)
#define SIG_ERR ((void (*)(int))-1)

#ifdef _GNU_SOURCE
typedef void (*sighandler_t)(int);
#endif

/* The handler before. SIG_ERR with EINVAL: no such signal, or one that can have no handler. */
void (*signal(int number, void (*handler)(int)))(int);

/* 0 once the handler has returned, where the signal is blocked, or of the number 0. -1 with EINVAL: no such signal. */
int raise(int number);

/* --- Masks -------------------------------------------------------------------------------------------------------- */

/* A bit for each signal. */
#ifndef _SIGSET_T_DECLARED
#define _SIGSET_T_DECLARED
typedef unsigned long sigset_t;
#endif

/* -1 with EINVAL: no such signal. */
int sigemptyset(sigset_t *set);
int sigfillset(sigset_t *set);
int sigaddset(sigset_t *set, int number);
int sigdelset(sigset_t *set, int number);
int sigismember(const sigset_t *set, int number);

#define SIG_SETMASK 0
#define SIG_BLOCK 1
#define SIG_UNBLOCK 2

/* A new thread has the mask of the thread that made it. Of what is raised while it is blocked a handler runs once, when it is
   unblocked. It is discarded where it is set to be ignored before, and signals to stop and SIGCONT discard each other.
   EINVAL: no such way. */
typedef unsigned int pthread_t;
int pthread_sigmask(int how, const sigset_t *__restrict set, sigset_t *__restrict old);
int sigprocmask(int how, const sigset_t *__restrict set, sigset_t *__restrict old);
int sigpending(sigset_t *set);

/* 0 asks whether the thread is there: ESRCH, else 0. A signal for oneself is raised; for another thread it is EINVAL. */
int pthread_kill(pthread_t id, int number);

/* --- Actions ------------------------------------------------------------------------------------------------------ */

union sigval {
    int sival_int;
    void *sival_ptr;
};

/* All that isn't named here is 0. */
typedef struct {
    int si_signo;
    int si_code;  /* SI_USER */
    pid_t si_pid; /* of the one process */
    uid_t si_uid;
    int si_errno;
    int si_status;
    void *si_addr;
    union sigval si_value;
} siginfo_t;

#define SI_USER 1

struct sigaction {
    union {
        void (*sa_handler)(int);
        void (*sa_sigaction)(int, siginfo_t *, void *); /* with SA_SIGINFO; the last argument is NULL */
    } __guest_action;
    sigset_t sa_mask; /* blocked too while the handler runs */
    int sa_flags;
};
#define sa_handler __guest_action.sa_handler
#define sa_sigaction __guest_action.sa_sigaction

#define SA_NOCLDSTOP 1
#define SA_SIGINFO 2
#define SA_RESETHAND 4
#define SA_NODEFER 8
#define SA_RESTART 16 /* this one, SA_NOCLDSTOP, SA_NOCLDWAIT and SA_ONSTACK change nothing */
#define SA_ONSTACK 32
#define SA_NOCLDWAIT 64

/* -1 with EINVAL: no such signal, or one that can have no handler. */
int sigaction(int number, const struct sigaction *__restrict action, struct sigaction *__restrict old);

#ifdef __cplusplus
}
#endif

#endif
