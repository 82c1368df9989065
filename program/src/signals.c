/* Signals that end the process.
 *
 * A crash ends the run, so that its recording is whole: a second run comes to the same instruction. A signal that would end the
 * process from outside does so too, where no thread is inside a call of the library: the helper does it. */
#include "runtime.h"
#include <fcntl.h>
#include <signal.h>
#include <sys/mman.h>

enum { HANDLER_STACK = 65536 };

static const int crashes[] = {SIGSEGV, SIGBUS, SIGFPE, SIGILL, SIGABRT, SIGTRAP};
static const int endings[] = {SIGINT, SIGTERM, SIGHUP, SIGQUIT};
static volatile int ending;

extern int __sigaction(int, const struct sigaction *, struct sigaction *);

static void restore(int number)
{
    struct sigaction plain = {.sa_handler = SIG_DFL};
    __sigaction(number, &plain, NULL);
}

static void crash(int number, siginfo_t *about, void *context)
{
    char cause[32];
    (void)about, (void)context;
    if (me != NULL && me->away == 0) {
        snprintf(cause, sizeof cause, "signal %d", number);
        end_run(cause, me->number);
    }
    /* It comes again where it came from, and ends the process as without the runtime. */
    restore(number);
    if (about->si_code <= 0)
        syscall(SYS_tgkill, syscall(SYS_getpid), syscall(SYS_gettid), number);
}

static void note_ending(int number)
{
    ending = number;
}

_Noreturn void die_by_signal(int number)
{
    restore(number);
    syscall(SYS_kill, syscall(SYS_getpid), number);
    for (;;)
        syscall(SYS_pause);
}

/* Called by the helper. */
void end_by_signal(void)
{
    char cause[32];
    if (ending == 0)
        return;
    snprintf(cause, sizeof cause, "signal %d", ending);
    end_run(cause, -1);
    die_by_signal(ending);
}

/* A stack for handlers, since that of the thread may be what has overflowed. */
void signals_of_thread(int number)
{
    static char stacks[THREADS][HANDLER_STACK];
    stack_t stack = {.ss_sp = stacks[number], .ss_size = HANDLER_STACK};
    sigaltstack(&stack, NULL);
}

void signals_begin(void)
{
    struct sigaction action = {.sa_sigaction = crash, .sa_flags = SA_SIGINFO | SA_ONSTACK}, before;
    for (size_t i = 0; i < sizeof crashes / sizeof *crashes; i++)
        __sigaction(crashes[i], &action, NULL);
    for (size_t i = 0; i < sizeof endings / sizeof *endings; i++)
        if (__sigaction(endings[i], NULL, &before) == 0 && before.sa_handler == SIG_DFL)
            signal_is_default(endings[i]);
    signals_of_thread(0);
}

bool is_ending(int number)
{
    for (size_t i = 0; i < sizeof endings / sizeof *endings; i++)
        if (endings[i] == number)
            return true;
    return false;
}

/* The program has no handler of this signal. */
int signal_is_default(int number)
{
    struct sigaction action = {.sa_handler = SIG_DFL};
    if (mode == RECORD && is_ending(number))
        action = (struct sigaction){.sa_handler = note_ending, .sa_flags = SA_RESTART};
    return __sigaction(number, &action, NULL);
}

/* A thread that waits for a signal rests meanwhile. Which one came is an input. */
int sigwait(const sigset_t *restrict set, int *restrict out)
{
    enum { KERNEL_SET = 8 };
    struct thread *t = me;
    int64_t found = 0;
    if (t != NULL)
        go_away(t);
    if (mode != AGAIN)
        while ((found = syscall(SYS_rt_sigtimedwait, set, NULL, NULL, KERNEL_SET)) < 0 && errno == EINTR)
            continue;
    if (t != NULL) {
        come_back(t);
        found = input(t, found < 0 ? -errno : found);
    }
    if (found < 0)
        return t != NULL ? (int)-found : errno;
    access_memory((uintptr_t)out, sizeof *out, OCTET_WRITE, CALLER);
    *out = (int)found;
    return 0;
}
