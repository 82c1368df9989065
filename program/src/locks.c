/* Locks, conditions, barriers, semaphores and once: plain data under an object of their own.
 *
 * So the order in which threads take a lock is recorded as that of all other accesses. In the recording a thread that has to wait
 * sleeps, with its session stopped, until a word changes, and looks again. In a second run it makes the same accesses and sleeps
 * for none of them: each waits for the marks before it. Outside a recorded run all calls are the C library's. */
#include "runtime.h"
#include <linux/futex.h>
#include <sched.h>

static int call_futex(volatile int *word, int operation, int value, const struct timespec *until)
{
    long found = syscall(SYS_futex, word, operation | FUTEX_PRIVATE_FLAG, value, until, NULL, ~0u);
    return found < 0 ? errno : 0;
}

void wake_waiters(volatile int *word, int most)
{
    if (mode != AGAIN)
        call_futex(word, FUTEX_WAKE, most, NULL);
}

/* Waits until the word may have changed. Whether the time was over, where there is one: an input of the recording. */
int wait_change(struct thread *t, volatile int *word, int seen, const struct timespec *until, clockid_t clock)
{
    int found = 0, before = errno;
    go_away(t);
    if (mode == RECORD)
        found = call_futex(word, FUTEX_WAIT_BITSET | (clock == CLOCK_REALTIME ? FUTEX_CLOCK_REALTIME : 0), seen, until);
    come_back(t);
    errno = before;
    return until == NULL ? 0 : (int)input(t, found == ETIMEDOUT);
}

/* The data of a lock: an access of it, where the program calls. */
static void own_at(struct thread *t, const volatile void *lock)
{
    own_lock_from(t, lock_object((const void *)lock), (uintptr_t)lock, t->call);
}

/* A thread that is not followed, as one that is at its end, finds each lock free. */
#define FOLLOWED(name, arguments)                                                                                        \
    struct thread *t = me;                                                                                                \
    if (t == NULL) {                                                                                                      \
        if (mode == STARTING)                                                                                             \
            real_begin();                                                                                                 \
        return mode <= ALONE ? real.name arguments : 0;                                                                   \
    }                                                                                                                     \
    t->call = CALLER;

/* Where the C library keeps the kind of a mutex, it is kept here too: a mutex may be initialized without a call. */
struct lock {
    volatile int owner, count, changes, waiters, kind;
};
_Static_assert(sizeof(struct lock) <= sizeof(pthread_mutex_t), "a lock has room");

static bool take_lock(struct thread *t, struct lock *lock)
{
    if (lock->owner != 0)
        return false;
    lock->owner = t->number + 1;
    lock->count = 1;
    return true;
}

/* What a thread is told that has the lock already, or 0. */
static int told_owner(struct thread *t, struct lock *lock, bool tries)
{
    int kind = lock->kind & 3;
    if (lock->owner != t->number + 1 || kind == PTHREAD_MUTEX_NORMAL)
        return 0;
    if (kind == PTHREAD_MUTEX_ERRORCHECK)
        return tries ? EBUSY : EDEADLK;
    return 0;
}

static int lock_until(struct thread *t, struct lock *lock, bool tries, const struct timespec *until, clockid_t clock)
{
    for (int timed = 0;;) {
        own_at(t, lock);
        if (take_lock(t, lock))
            return 0;
        if (lock->owner == t->number + 1 && (lock->kind & 3) == PTHREAD_MUTEX_RECURSIVE) {
            lock->count++;
            return 0;
        }
        int told = told_owner(t, lock, tries);
        if (told != 0 || tries || timed)
            return told != 0 ? told : tries ? EBUSY : ETIMEDOUT;
        lock->waiters++;
        timed = wait_change(t, &lock->changes, lock->changes, until, clock);
        own_at(t, lock);
        lock->waiters--;
    }
}

static int give_lock(struct thread *t, struct lock *lock)
{
    own_at(t, lock);
    if ((lock->kind & 3) != PTHREAD_MUTEX_NORMAL && lock->owner != t->number + 1)
        return EPERM;
    if (--lock->count > 0)
        return 0;
    lock->owner = 0;
    if (lock->waiters > 0) {
        lock->changes++;
        wake_waiters(&lock->changes, 1);
    }
    return 0;
}

int pthread_mutex_init(pthread_mutex_t *mutex, const pthread_mutexattr_t *given)
{
    FOLLOWED(pthread_mutex_init, (mutex, given))
    struct lock *lock = (struct lock *)mutex;
    int kind = PTHREAD_MUTEX_DEFAULT;
    if (given != NULL)
        pthread_mutexattr_gettype(given, &kind);
    own_at(t, lock);
    *lock = (struct lock){.kind = kind};
    return 0;
}

int pthread_mutex_destroy(pthread_mutex_t *mutex)
{
    FOLLOWED(pthread_mutex_destroy, (mutex))
    own_at(t, mutex);
    return ((struct lock *)mutex)->owner != 0 ? EBUSY : 0;
}

int pthread_mutex_lock(pthread_mutex_t *mutex)
{
    FOLLOWED(pthread_mutex_lock, (mutex))
    return lock_until(t, (struct lock *)mutex, false, NULL, 0);
}

int pthread_mutex_trylock(pthread_mutex_t *mutex)
{
    FOLLOWED(pthread_mutex_trylock, (mutex))
    return lock_until(t, (struct lock *)mutex, true, NULL, 0);
}

int pthread_mutex_timedlock(pthread_mutex_t *mutex, const struct timespec *until)
{
    FOLLOWED(pthread_mutex_timedlock, (mutex, until))
    return lock_until(t, (struct lock *)mutex, false, until, CLOCK_REALTIME);
}

int pthread_mutex_clocklock(pthread_mutex_t *mutex, clockid_t clock, const struct timespec *until)
{
    FOLLOWED(pthread_mutex_clocklock, (mutex, clock, until))
    return lock_until(t, (struct lock *)mutex, false, until, clock);
}

int pthread_mutex_unlock(pthread_mutex_t *mutex)
{
    FOLLOWED(pthread_mutex_unlock, (mutex))
    return give_lock(t, (struct lock *)mutex);
}

/* A thread that spins is stopped meanwhile, so that others need not wait for it. */
int pthread_spin_init(pthread_spinlock_t *spin, int shared)
{
    FOLLOWED(pthread_spin_init, (spin, shared))
    own_at(t, spin);
    *spin = 0;
    return 0;
}

int pthread_spin_destroy(pthread_spinlock_t *spin)
{
    FOLLOWED(pthread_spin_destroy, (spin))
    return 0;
}

static bool take_spin(struct thread *t, pthread_spinlock_t *spin)
{
    own_at(t, spin);
    if (*spin == 2)
        return false;
    *spin = 2;
    return true;
}

/* A spin lock that is free is 1 for the C library, and 0 for the runtime. */
int pthread_spin_lock(pthread_spinlock_t *spin)
{
    FOLLOWED(pthread_spin_lock, (spin))
    while (!take_spin(t, spin)) {
        go_away(t);
        if (mode == RECORD)
            syscall(SYS_sched_yield);
        come_back(t);
    }
    return 0;
}

int pthread_spin_trylock(pthread_spinlock_t *spin)
{
    FOLLOWED(pthread_spin_trylock, (spin))
    return take_spin(t, spin) ? 0 : EBUSY;
}

int pthread_spin_unlock(pthread_spinlock_t *spin)
{
    FOLLOWED(pthread_spin_unlock, (spin))
    own_at(t, spin);
    *spin = 0;
    return 0;
}

struct condition {
    volatile int changes, waiters, clock;
};

int pthread_cond_init(pthread_cond_t *at, const pthread_condattr_t *given)
{
    FOLLOWED(pthread_cond_init, (at, given))
    clockid_t clock = CLOCK_REALTIME;
    if (given != NULL)
        pthread_condattr_getclock(given, &clock);
    own_at(t, at);
    *(struct condition *)at = (struct condition){.clock = clock};
    return 0;
}

int pthread_cond_destroy(pthread_cond_t *at)
{
    FOLLOWED(pthread_cond_destroy, (at))
    return 0;
}

static int wait_condition(struct thread *t, struct condition *at, struct lock *lock, const struct timespec *until, int clock)
{
    own_at(t, at);
    int seen = at->changes, timed = 0, count = lock->count;
    at->waiters++;
    lock->count = 1;
    give_lock(t, lock);
    do {
        timed = wait_change(t, &at->changes, seen, until, clock);
        own_at(t, at);
    } while (at->changes == seen && !timed);
    timed = at->changes == seen;
    at->waiters--;
    lock_until(t, lock, false, NULL, 0);
    lock->count = count;
    return timed ? ETIMEDOUT : 0;
}

int pthread_cond_wait(pthread_cond_t *at, pthread_mutex_t *mutex)
{
    FOLLOWED(pthread_cond_wait, (at, mutex))
    return wait_condition(t, (struct condition *)at, (struct lock *)mutex, NULL, 0);
}

int pthread_cond_timedwait(pthread_cond_t *at, pthread_mutex_t *mutex, const struct timespec *until)
{
    FOLLOWED(pthread_cond_timedwait, (at, mutex, until))
    struct condition *condition = (struct condition *)at;
    return wait_condition(t, condition, (struct lock *)mutex, until, condition->clock);
}

int pthread_cond_clockwait(pthread_cond_t *at, pthread_mutex_t *mutex, clockid_t clock, const struct timespec *until)
{
    FOLLOWED(pthread_cond_clockwait, (at, mutex, clock, until))
    return wait_condition(t, (struct condition *)at, (struct lock *)mutex, until, clock);
}

static int wake_condition(struct thread *t, struct condition *at, int most)
{
    own_at(t, at);
    if (at->waiters > 0) {
        at->changes++;
        wake_waiters(&at->changes, most);
    }
    return 0;
}

int pthread_cond_signal(pthread_cond_t *at)
{
    FOLLOWED(pthread_cond_signal, (at))
    return wake_condition(t, (struct condition *)at, 1);
}

int pthread_cond_broadcast(pthread_cond_t *at)
{
    FOLLOWED(pthread_cond_broadcast, (at))
    return wake_condition(t, (struct condition *)at, INT32_MAX);
}

struct readers {
    volatile int readers, writer, changes;
};

static int lock_readers(struct thread *t, struct readers *lock, bool writes, bool tries, const struct timespec *until, clockid_t clock)
{
    for (int timed = 0;;) {
        own_at(t, lock);
        if (!lock->writer && (!writes || !lock->readers)) {
            if (writes)
                lock->writer = t->number + 1;
            else
                lock->readers++;
            return 0;
        }
        if (tries || timed)
            return tries ? EBUSY : ETIMEDOUT;
        if (lock->writer == t->number + 1)
            return EDEADLK;
        timed = wait_change(t, &lock->changes, lock->changes, until, clock);
    }
}

int pthread_rwlock_init(pthread_rwlock_t *at, const pthread_rwlockattr_t *given)
{
    FOLLOWED(pthread_rwlock_init, (at, given))
    own_at(t, at);
    *(struct readers *)at = (struct readers){0};
    return 0;
}

int pthread_rwlock_destroy(pthread_rwlock_t *at)
{
    FOLLOWED(pthread_rwlock_destroy, (at))
    return 0;
}

#define LOCK_READERS(name, parameters, given, writes, tries, until, clock)                                               \
    int name parameters                                                                                                   \
    {                                                                                                                     \
        FOLLOWED(name, given)                                                                                             \
        return lock_readers(t, (struct readers *)at, writes, tries, until, clock);                                        \
    }
#define TIMED (pthread_rwlock_t * at, const struct timespec *until)
LOCK_READERS(pthread_rwlock_rdlock, (pthread_rwlock_t * at), (at), false, false, NULL, 0)
LOCK_READERS(pthread_rwlock_wrlock, (pthread_rwlock_t * at), (at), true, false, NULL, 0)
LOCK_READERS(pthread_rwlock_tryrdlock, (pthread_rwlock_t * at), (at), false, true, NULL, 0)
LOCK_READERS(pthread_rwlock_trywrlock, (pthread_rwlock_t * at), (at), true, true, NULL, 0)
LOCK_READERS(pthread_rwlock_timedrdlock, TIMED, (at, until), false, false, until, CLOCK_REALTIME)
LOCK_READERS(pthread_rwlock_timedwrlock, TIMED, (at, until), true, false, until, CLOCK_REALTIME)
#define CLOCKED (pthread_rwlock_t * at, clockid_t clock, const struct timespec *until)
LOCK_READERS(pthread_rwlock_clockrdlock, CLOCKED, (at, clock, until), false, false, until, clock)
LOCK_READERS(pthread_rwlock_clockwrlock, CLOCKED, (at, clock, until), true, false, until, clock)

int pthread_rwlock_unlock(pthread_rwlock_t *at)
{
    FOLLOWED(pthread_rwlock_unlock, (at))
    struct readers *lock = (struct readers *)at;
    own_at(t, lock);
    if (lock->writer)
        lock->writer = 0;
    else
        lock->readers--;
    lock->changes++;
    wake_waiters(&lock->changes, INT32_MAX);
    return 0;
}

struct barrier {
    volatile int needs, here, round;
};

int pthread_barrier_init(pthread_barrier_t *at, const pthread_barrierattr_t *given, unsigned needs)
{
    FOLLOWED(pthread_barrier_init, (at, given, needs))
    if (needs == 0)
        return EINVAL;
    own_at(t, at);
    *(struct barrier *)at = (struct barrier){.needs = (int)needs};
    return 0;
}

int pthread_barrier_destroy(pthread_barrier_t *at)
{
    FOLLOWED(pthread_barrier_destroy, (at))
    return 0;
}

int pthread_barrier_wait(pthread_barrier_t *at)
{
    FOLLOWED(pthread_barrier_wait, (at))
    struct barrier *barrier = (struct barrier *)at;
    own_at(t, at);
    int round = barrier->round;
    if (++barrier->here == barrier->needs) {
        barrier->here = 0;
        barrier->round++;
        wake_waiters(&barrier->round, INT32_MAX);
        return PTHREAD_BARRIER_SERIAL_THREAD;
    }
    while (barrier->round == round) {
        wait_change(t, &barrier->round, round, NULL, 0);
        own_at(t, at);
    }
    return 0;
}

struct semaphore {
    volatile int value, changes;
};

int sem_init(sem_t *at, int shared, unsigned value)
{
    FOLLOWED(sem_init, (at, shared, value))
    own_at(t, at);
    *(struct semaphore *)at = (struct semaphore){.value = (int)value};
    return 0;
}

int sem_destroy(sem_t *at)
{
    FOLLOWED(sem_destroy, (at))
    return 0;
}

int sem_post(sem_t *at)
{
    FOLLOWED(sem_post, (at))
    struct semaphore *semaphore = (struct semaphore *)at;
    own_at(t, at);
    semaphore->value++;
    semaphore->changes++;
    wake_waiters(&semaphore->changes, 1);
    return 0;
}

static int take_semaphore(struct thread *t, sem_t *at, bool tries, const struct timespec *until)
{
    struct semaphore *semaphore = (struct semaphore *)at;
    for (int timed = 0;;) {
        own_at(t, at);
        if (semaphore->value > 0) {
            semaphore->value--;
            return 0;
        }
        if (tries || timed) {
            errno = tries ? EAGAIN : ETIMEDOUT;
            return -1;
        }
        timed = wait_change(t, &semaphore->changes, semaphore->changes, until, CLOCK_REALTIME);
    }
}

int sem_wait(sem_t *at)
{
    FOLLOWED(sem_wait, (at))
    return take_semaphore(t, at, false, NULL);
}

int sem_trywait(sem_t *at)
{
    FOLLOWED(sem_trywait, (at))
    return take_semaphore(t, at, true, NULL);
}

int sem_timedwait(sem_t *at, const struct timespec *until)
{
    FOLLOWED(sem_timedwait, (at, until))
    return take_semaphore(t, at, false, until);
}

int sem_getvalue(sem_t *at, int *value)
{
    FOLLOWED(sem_getvalue, (at, value))
    own_at(t, at);
    int found = ((struct semaphore *)at)->value;
    access_memory((uintptr_t)value, sizeof found, OCTET_WRITE, CALLER);
    *value = found;
    return 0;
}

enum { ONCE_BEGUN = 1, ONCE_DONE = 2 };

/* Whether the caller is the one that does it. Other ones wait until it is done. */
static bool begin_once(volatile int *state)
{
    struct thread *t = me;
    for (;;) {
        if (t != NULL)
            own_at(t, state);
        int found = 0;
        if (__atomic_compare_exchange_n(state, &found, ONCE_BEGUN, false, __ATOMIC_SEQ_CST, __ATOMIC_SEQ_CST))
            return true;
        if (found == ONCE_DONE)
            return false;
        if (t != NULL)
            wait_change(t, state, ONCE_BEGUN, NULL, 0);
        else
            call_futex(state, FUTEX_WAIT, ONCE_BEGUN, NULL);
    }
}

static void end_once(volatile int *state, int becomes)
{
    if (me != NULL)
        own_at(me, state);
    __atomic_store_n(state, becomes, __ATOMIC_SEQ_CST);
    wake_waiters(state, INT32_MAX);
}

struct doing {
    volatile int *state;
    int becomes;
};

static void end_doing(struct doing *doing)
{
    end_once(doing->state, doing->becomes);
}

int pthread_once(pthread_once_t *at, void (*function)(void))
{
    volatile int *state = (volatile int *)at;
    if (me != NULL)
        me->call = CALLER;
    if (!begin_once(state))
        return 0;
    /* An exception of C++ may leave it undone. */
    __attribute__((cleanup(end_doing))) struct doing doing = {state, 0};
    function();
    doing.becomes = ONCE_DONE;
    return 0;
}

/* What a compiler puts around the start of a static variable of a function. Its first byte says that it is done. */
int __cxa_guard_acquire(uint64_t *guard)
{
    if (me != NULL)
        me->call = CALLER;
    return begin_once((volatile int *)guard + 1);
}

void __cxa_guard_release(uint64_t *guard)
{
    if (me != NULL)
        me->call = CALLER;
    end_once((volatile int *)guard + 1, ONCE_DONE);
    access_memory((uintptr_t)guard, 1, OCTET_WRITE, CALLER);
    __atomic_store_n((volatile char *)guard, 1, __ATOMIC_RELEASE);
}

void __cxa_guard_abort(uint64_t *guard)
{
    end_once((volatile int *)guard + 1, 0);
}
