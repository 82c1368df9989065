/* Clocks, sleep, random numbers and what the process is told of itself: inputs, which a second run finds as they were. */
#include "runtime.h"
#include <linux/futex.h>
#include <sched.h>
#include <sys/random.h>
#include <sys/resource.h>
#include <sys/time.h>
#include <sys/times.h>

int clock_gettime(clockid_t clock, struct timespec *out)
{
    struct thread *t = me;
    struct timespec found = {0, 0};
    if (t == NULL || mode == RECORD) {
        int status = (int)syscall(SYS_clock_gettime, clock, &found);
        if (status != 0)
            return status;
    }
    if (t != NULL)
        input_bytes(t, &found, sizeof found);
    access_memory((uintptr_t)out, sizeof found, OCTET_WRITE, CALLER);
    *out = found;
    return 0;
}

int gettimeofday(struct timeval *restrict out, void *restrict zone)
{
    struct timespec now;
    (void)zone;
    clock_gettime(CLOCK_REALTIME, &now);
    access_memory((uintptr_t)out, sizeof *out, OCTET_WRITE, CALLER);
    out->tv_sec = now.tv_sec;
    out->tv_usec = now.tv_nsec / 1000;
    return 0;
}

time_t time(time_t *out)
{
    struct timespec now;
    clock_gettime(CLOCK_REALTIME, &now);
    if (out != NULL) {
        access_memory((uintptr_t)out, sizeof *out, OCTET_WRITE, CALLER);
        *out = now.tv_sec;
    }
    return now.tv_sec;
}

clock_t clock(void)
{
    struct timespec now;
    clock_gettime(CLOCK_PROCESS_CPUTIME_ID, &now);
    return now.tv_sec * CLOCKS_PER_SEC + now.tv_nsec / (1000000000 / CLOCKS_PER_SEC);
}

int getrusage(int whose, struct rusage *out)
{
    struct thread *t = me;
    struct rusage found = {0};
    if (t == NULL || mode == RECORD)
        syscall(SYS_getrusage, whose, &found);
    if (t != NULL)
        input_bytes(t, &found, sizeof found);
    access_range(out, sizeof found, OCTET_WRITE, CALLER);
    raw_copy(out, &found, sizeof found);
    return 0;
}

/* A sleep takes no time in a second run. */
static int sleep_as(struct thread *t, clockid_t clock, int flags, const struct timespec *how_long, struct timespec *left)
{
    int found = 0;
    if (t != NULL)
        go_away(t);
    if (mode != AGAIN)
        found = syscall(SYS_clock_nanosleep, clock, flags, how_long, left) == 0 ? 0 : errno;
    if (t != NULL) {
        come_back(t);
        found = (int)input(t, found);
    }
    return found;
}

int nanosleep(const struct timespec *how_long, struct timespec *left)
{
    int found = sleep_as(me, CLOCK_MONOTONIC, 0, how_long, left);
    if (found == 0)
        return 0;
    errno = found;
    return -1;
}

int clock_nanosleep(clockid_t clock, int flags, const struct timespec *how_long, struct timespec *left)
{
    return sleep_as(me, clock, flags, how_long, left);
}

int usleep(useconds_t microseconds)
{
    struct timespec time = {microseconds / 1000000, microseconds % 1000000 * 1000};
    return nanosleep(&time, NULL);
}

unsigned sleep(unsigned seconds)
{
    struct timespec time = {seconds, 0};
    return nanosleep(&time, NULL) == 0 ? 0 : 1;
}

int sched_yield(void)
{
    struct thread *t = me;
    if (t != NULL)
        go_away(t);
    if (mode != AGAIN)
        syscall(SYS_sched_yield);
    if (t != NULL)
        come_back(t);
    return 0;
}

ssize_t getrandom(void *out, size_t length, unsigned flags)
{
    struct thread *t = me;
    if (t == NULL)
        return syscall(SYS_getrandom, out, length, flags);
    void *room = room_of(t, length);
    long found = mode == RECORD ? syscall(SYS_getrandom, room, length, flags) : 0;
    found = input(t, found);
    if (found > 0) {
        input_bytes(t, room, (size_t)found);
        scatter(out, room, (size_t)found, CALLER);
    }
    return found;
}

int getentropy(void *out, size_t length)
{
    return getrandom(out, length, 0) == (ssize_t)length ? 0 : -1;
}

/* The random numbers of the C library follow from what was drawn before. */
#define DRAW(result, name)                                                                                               \
    result name(void)                                                                                                     \
    {                                                                                                                     \
        if (me != NULL)                                                                                                   \
            own_lock(me, OBJECT_RANDOM);                                                                                  \
        return real.name();                                                                                               \
    }                                                                                                                     \
    void s##name(unsigned seed)                                                                                           \
    {                                                                                                                     \
        if (me != NULL)                                                                                                   \
            own_lock(me, OBJECT_RANDOM);                                                                                  \
        real.s##name(seed);                                                                                               \
    }
DRAW(int, rand)
DRAW(long, random)

#define NUMBER(name, call)                                                                                               \
    pid_t name(void)                                                                                                      \
    {                                                                                                                     \
        struct thread *t = me;                                                                                            \
        pid_t found = (pid_t)syscall(call);                                                                               \
        return t != NULL ? (pid_t)input(t, found) : found;                                                                \
    }
NUMBER(getpid, SYS_getpid)
NUMBER(getppid, SYS_getppid)
NUMBER(gettid, SYS_gettid)

int sched_getcpu(void)
{
    unsigned found = 0;
    syscall(SYS_getcpu, &found, NULL, NULL);
    return me != NULL ? (int)input(me, found) : (int)found;
}

/* How many processors there are may be asked too. */
long sysconf(int name)
{
    extern long __sysconf(int);
    long found = __sysconf(name);
    return me != NULL ? input(me, found) : found;
}

int get_nprocs(void)
{
    return (int)sysconf(_SC_NPROCESSORS_ONLN);
}

static bool is_wait(long number, long operation)
{
    long command = operation & FUTEX_CMD_MASK;
    return number == SYS_futex && (command == FUTEX_WAIT || command == FUTEX_WAIT_BITSET);
}

/* Libraries of C++ wait on words by this. */
static long follow_syscall(struct thread *t, long number, const long *given)
{
    long found = 0;
    bool waits = is_wait(number, given[1]);
    if (number != SYS_futex)
        return syscall(number, given[0], given[1], given[2], given[3], given[4], given[5]);
    if (waits)
        go_away(t);
    if (mode == RECORD)
        found = syscall(number, given[0], given[1], given[2], given[3], given[4], given[5]) >= 0 ? 0 : -errno;
    if (waits)
        come_back(t);
    found = input(t, found);
    if (found >= 0)
        return found;
    errno = (int)-found;
    return -1;
}

#undef syscall
long syscall(long number, ...)
{
    long given[6];
    va_list values;
    va_start(values, number);
    for (int i = 0; i < 6; i++)
        given[i] = va_arg(values, long);
    va_end(values);
    if (me != NULL)
        return follow_syscall(me, number, given);
    return raw_syscall(number, given[0], given[1], given[2], given[3], given[4], given[5]);
}
