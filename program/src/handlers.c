/* The program's handlers of signals.
 *
 * A signal that comes is noted alone. Its handler is called at the thread's next call of the library, and it is kept at which; or
 * where the thread waits for signals, or changes its mask, and there it is an input. So a second run calls the handler at the same
 * place, and no signal is sent in it that has one. What a thread sends to itself is handled at once, in both runs. */
#include "runtime.h"
#include <fcntl.h>
#include <signal.h>

enum { SIGNALS = 64, KERNEL_SET = 8 };

static struct sigaction handlers[SIGNALS + 1];
static const int crashes[] = {SIGSEGV, SIGBUS, SIGFPE, SIGILL, SIGABRT, SIGTRAP, SIGKILL, SIGSTOP};

extern int __sigaction(int, const struct sigaction *, struct sigaction *);

/* Where a signal was handled at a call of the library: of how many calls, and which they were, a bit for each. */
struct handled {
    uint64_t calls, which;
};

static bool has_handler(int number)
{
    return number > 0 && number <= SIGNALS && handlers[number].sa_handler != SIG_DFL && handlers[number].sa_handler != SIG_IGN;
}

static bool is_crash(int number)
{
    for (size_t i = 0; i < sizeof crashes / sizeof *crashes; i++)
        if (crashes[i] == number)
            return true;
    return false;
}

static void note_signal(int number)
{
    if (arena_number >= THREADS)
        return;
    struct thread *t = &threads[arena_number];
    __atomic_fetch_or(&t->signals, 1ul << (number - 1), __ATOMIC_SEQ_CST);
    t->signal_at = 0;
}

static void call_handler(int number)
{
    int before = errno;
    const struct sigaction *action = &handlers[number];
    siginfo_t about = {.si_signo = number};
    if (!has_handler(number))
        return;
    if (action->sa_flags & SA_SIGINFO)
        action->sa_sigaction(number, &about, NULL);
    else
        action->sa_handler(number);
    errno = before;
}

static void call_handlers(struct thread *t, uint64_t which)
{
    t->handles++;
    for (int number = 1; number <= SIGNALS; number++)
        if (which >> (number - 1) & 1)
            call_handler(number);
    t->handles--;
}

static void name_of(const struct thread *t, char *name, size_t room)
{
    snprintf(name, room, "%s/signals.%d", run_folder, t->number);
}

static uint64_t next_handled(const struct thread *t)
{
    return t->handled_taken < t->handled_count ? t->handled[t->handled_taken].calls : UINT64_MAX;
}

void handlers_begin(void)
{
    char name[4096];
    for (int i = 0; i < THREADS; i++) {
        struct thread *t = &threads[i];
        t->signal_at = UINT64_MAX;
        t->handled_file = -1;
        if (mode != AGAIN)
            continue;
        name_of(t, name, sizeof name);
        t->handled = (const struct handled *)map_file(name, &t->handled_count);
        t->handled_count /= sizeof(struct handled);
        t->signal_at = next_handled(t);
    }
}

static void keep_handled(struct thread *t, uint64_t which)
{
    struct handled handled = {t->calls, which};
    if (t->handled_file < 0) {
        char name[4096];
        name_of(t, name, sizeof name);
        int file = (int)syscall(SYS_open, name, O_WRONLY | O_CREAT | O_TRUNC | O_CLOEXEC, 0600);
        t->handled_file = file < 0 ? file : (int)syscall(SYS_fcntl, file, F_DUPFD_CLOEXEC, 900);
        syscall(SYS_close, file);
    }
    if (syscall(SYS_write, t->handled_file, &handled, sizeof handled) != sizeof handled) {
        say("octet: the signals of thread %d cannot be written\n", t->number);
        leave_process(EXIT_UNSET);
    }
}

/* Before a call of the library, where one came: or, in a second run, where one was handled. */
void handle_signals(struct thread *t)
{
    uint64_t which;
    if (t->handles > 0)
        return;
    if (mode == AGAIN) {
        which = t->handled[t->handled_taken++].which;
        t->signal_at = next_handled(t);
    } else {
        t->signal_at = UINT64_MAX;
        which = __atomic_exchange_n(&t->signals, 0, __ATOMIC_SEQ_CST);
        if (which == 0)
            return;
        keep_handled(t, which);
    }
    call_handlers(t, which);
}

/* Where a thread has waited for signals, or has let some come. */
static void handle_here(struct thread *t)
{
    uint64_t which = mode == RECORD ? __atomic_exchange_n(&t->signals, 0, __ATOMIC_SEQ_CST) : 0;
    call_handlers(t, (uint64_t)input(t, (int64_t)which));
}

/* A signal with a handler is not sent in a second run; but a timer of the program's may send it, and then it is left aside. */
static int set_handler(int number, const struct sigaction *action)
{
    struct sigaction noting = *action;
    handlers[number] = *action;
    if (noting.sa_handler == SIG_DFL)
        return signal_is_default(number);
    if (has_handler(number)) {
        noting.sa_flags &= ~(SA_SIGINFO | SA_RESETHAND);
        noting.sa_handler = mode == RECORD ? note_signal : is_ending(number) ? SIG_DFL : SIG_IGN;
    }
    return __sigaction(number, &noting, NULL);
}

int sigaction(int number, const struct sigaction *restrict action, struct sigaction *restrict before)
{
    struct thread *t = me;
    if (t == NULL || number <= 0 || number > SIGNALS || is_crash(number))
        return __sigaction(number, action, before);
    struct sigaction was = handlers[number];
    own_lock(t, OBJECT_SIGNALS);
    if (action != NULL && set_handler(number, action) != 0)
        return -1;
    if (before != NULL) {
        access_range(before, sizeof was, OCTET_WRITE, CALLER);
        raw_copy(before, &was, sizeof was);
    }
    return 0;
}

sighandler_t signal(int number, sighandler_t handler)
{
    struct sigaction action = {.sa_handler = handler, .sa_flags = SA_RESTART}, before;
    return sigaction(number, &action, &before) == 0 ? before.sa_handler : SIG_ERR;
}

int pthread_sigmask(int how, const sigset_t *set, sigset_t *before)
{
    struct thread *t = me;
    uint64_t was = 0;
    int found = syscall(SYS_rt_sigprocmask, how, set, &was, KERNEL_SET) == 0 ? 0 : errno;
    if (before != NULL && found == 0) {
        sigemptyset(before);
        access_memory((uintptr_t)before, sizeof was, OCTET_WRITE, CALLER);
        raw_copy(before, &was, sizeof was);
    }
    if (t != NULL)
        handle_here(t);
    return found;
}

int sigprocmask(int how, const sigset_t *restrict set, sigset_t *restrict before)
{
    int found = pthread_sigmask(how, set, before);
    if (found == 0)
        return 0;
    errno = found;
    return -1;
}

/* A thread that waits for a signal rests meanwhile. */
static int wait_for_signal(struct thread *t, const sigset_t *set)
{
    if (t != NULL)
        go_away(t);
    if (mode != AGAIN && set != NULL)
        syscall(SYS_rt_sigsuspend, set, KERNEL_SET);
    else if (mode != AGAIN)
        syscall(SYS_pause);
    if (t != NULL) {
        come_back(t);
        handle_here(t);
    }
    errno = EINTR;
    return -1;
}

int sigsuspend(const sigset_t *set)
{
    return wait_for_signal(me, set);
}

int pause(void)
{
    return wait_for_signal(me, NULL);
}

int sigpending(sigset_t *set)
{
    struct thread *t = me;
    uint64_t found = 0;
    if (t == NULL || mode == RECORD)
        syscall(SYS_rt_sigpending, &found, KERNEL_SET);
    if (t != NULL)
        found = (uint64_t)input(t, (int64_t)found);
    sigemptyset(set);
    access_memory((uintptr_t)set, sizeof found, OCTET_WRITE, CALLER);
    raw_copy(set, &found, sizeof found);
    return 0;
}

/* Whether a signal is sent in this run. In a second run the number of the process is that of the recorded one. */
static bool is_sent(int number)
{
    return mode != AGAIN || !has_handler(number);
}

int kill(pid_t process, int number)
{
    struct thread *t = me;
    pid_t self = (pid_t)syscall(SYS_getpid);
    if (t == NULL)
        return (int)syscall(SYS_kill, process, number);
    bool is_self = input(t, process == self || process == 0) != 0;
    int64_t found = 0;
    if (mode == RECORD)
        found = syscall(SYS_kill, process, number) == 0 ? 0 : -errno;
    else if (is_self && is_sent(number))
        syscall(SYS_kill, self, number);
    found = input(t, found);
    if (found == 0)
        return 0;
    errno = (int)-found;
    return -1;
}

int pthread_kill(pthread_t thread, int number)
{
    struct thread *t = me;
    if (t == NULL)
        return real.pthread_kill(thread, number);
    return (int)input(t, is_sent(number) ? real.pthread_kill(thread, number) : 0);
}

static bool is_blocked(int number)
{
    uint64_t mask = 0;
    syscall(SYS_rt_sigprocmask, SIG_BLOCK, NULL, &mask, KERNEL_SET);
    return mask >> (number - 1) & 1;
}

int raise(int number)
{
    struct thread *t = me;
    if (t != NULL && has_handler(number) && !is_blocked(number)) {
        call_handlers(t, 1ul << (number - 1));
        return 0;
    }
    if (t != NULL && !is_sent(number))
        return 0;
    return (int)syscall(SYS_tgkill, syscall(SYS_getpid), syscall(SYS_gettid), number);
}
