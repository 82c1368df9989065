/* Threads: each has the number of a session, and a stack at a fixed place.
 *
 * Numbers are given out under an object of their own, so both runs give the same. A number is given on once its thread is joined,
 * or is over and detached. */
#include "runtime.h"
#include <limits.h>
#include <sys/mman.h>

#define STACK_LEAST (8ul << 20)
#define STACK_MOST ((1ul << STACK_BITS) - 4096)

static int next_number = 1, unused_count, unused[THREADS];
/* How many threads of the program there are. */
static int living = 1;
static pthread_key_t key;

static void give_number(int number)
{
    unused[unused_count++] = number;
}

/* A thread that has left its recording may end with fewer calls, and others would wait for the rest for good. */
static void compare_calls(struct thread *t)
{
    uint64_t recorded = (uint64_t)input(t, (int64_t)t->calls);
    if (recorded == t->calls)
        return;
    say("octet: thread %d ends after %lu calls, and was recorded to end after %lu\n", t->number, t->calls, recorded);
    tell_left(t, 0, 0, 0, NULL);
    leave_process(EXIT_DIVERGED);
}

/* The thread makes no further access. */
static void end_thread(struct thread *t)
{
    own_lock(t, OBJECT_THREADS);
    compare_calls(t);
    t->over = true;
    /* The C library ends the process with its last thread; but there is that of the runtime. */
    if (--living == 0)
        exit(0);
    if (t->detached)
        give_number(t->number);
    go_away(t);
}

/* The last of what a thread does at its end: the C library destroys what has a key in up to four rounds. */
static void at_thread_end(void *given)
{
    struct thread *t = given;
    if (me == NULL)
        return;
    if (++t->rounds < PTHREAD_DESTRUCTOR_ITERATIONS) {
        pthread_setspecific(key, t);
        return;
    }
    end_thread(t);
}

void threads_begin(void)
{
    pthread_key_create(&key, at_thread_end);
}

static void *begin_thread(void *given)
{
    struct thread *t = given;
    arena_number = t->number;
    t->task = (int)syscall(SYS_gettid);
    pthread_setspecific(key, t);
    signals_of_thread(t->number);
    come_back(t);
    return t->function(t->argument);
}

static uintptr_t stack_of(int number)
{
    return STACK_FIRST + ((uintptr_t)number << STACK_BITS);
}

static bool map_stack(int number, size_t size)
{
    uintptr_t at = stack_of(number);
    long found = syscall(SYS_mmap, at, size, PROT_READ | PROT_WRITE, MAP_PRIVATE | MAP_ANONYMOUS | MAP_NORESERVE | MAP_FIXED, -1, 0L);
    return found == (long)at;
}

/* The number of the next thread, or less than 0 where there are too many. */
static int take_number(void)
{
    if (unused_count > 0) {
        struct thread *before = &threads[unused[--unused_count]];
        /* It is over, and only the system may not be done with its stack. */
        if (before->detached)
            real.pthread_join(before->id, NULL);
        return before->number;
    }
    return next_number < THREADS ? next_number++ : -1;
}

static size_t read_attributes(const pthread_attr_t *given, bool *detached)
{
    size_t size = STACK_LEAST, wanted;
    int state = PTHREAD_CREATE_JOINABLE;
    if (given != NULL) {
        if (pthread_attr_getstacksize(given, &wanted) == 0 && wanted > size)
            size = wanted < STACK_MOST ? wanted : STACK_MOST;
        pthread_attr_getdetachstate(given, &state);
    }
    *detached = state == PTHREAD_CREATE_DETACHED;
    return (size + 4095) & ~4095ul;
}

int pthread_create(pthread_t *out, const pthread_attr_t *given, void *(*function)(void *), void *argument)
{
    struct thread *t = me;
    if (t == NULL)
        return real.pthread_create(out, given, function, argument);
    own_lock(t, OBJECT_THREADS);
    int number = take_number();
    if (number < 0) {
        say("octet: the program has more than %d threads at once, and no more can be followed\n", THREADS);
        leave_process(EXIT_UNSET);
    }
    struct thread *made = &threads[number];
    living++;
    size_t size = read_attributes(given, &made->detached);
    made->function = function;
    made->argument = argument;
    made->over = false;
    made->rounds = 0;
    made->away = 1;
    made->stack_low = all_stacks ? 0 : stack_of(number);
    made->stack_size = all_stacks ? 0 : 1ul << STACK_BITS;
    pthread_attr_t attributes;
    pthread_attr_init(&attributes);
    int status = map_stack(number, size) ? pthread_attr_setstack(&attributes, (void *)stack_of(number), size) : EAGAIN;
    if (status == 0) {
        __atomic_store_n(&made->state, RESTING, __ATOMIC_SEQ_CST);
        status = real.pthread_create(&made->id, &attributes, begin_thread, made);
    }
    pthread_attr_destroy(&attributes);
    if (status != 0) {
        say("octet: a thread cannot be made: error %d\n", status);
        leave_process(EXIT_UNSET);
    }
    access_memory((uintptr_t)out, sizeof *out, OCTET_WRITE, CALLER);
    *out = made->id;
    return 0;
}

static struct thread *thread_of(pthread_t id)
{
    uintptr_t place = ((uintptr_t)id - STACK_FIRST) >> STACK_BITS;
    return place > 0 && place < THREADS ? &threads[place] : NULL;
}

int pthread_join(pthread_t id, void **out)
{
    struct thread *t = me, *other = thread_of(id);
    if (t == NULL)
        return real.pthread_join(id, out);
    if (other == NULL || other == t)
        return other == t ? EDEADLK : ESRCH;
    void *found = NULL;
    go_away(t);
    int status = real.pthread_join(id, &found);
    come_back(t);
    own_lock(t, OBJECT_THREADS);
    if (status != 0)
        return status;
    give_number(other->number);
    if (out != NULL) {
        access_memory((uintptr_t)out, sizeof found, OCTET_WRITE, CALLER);
        *out = found;
    }
    return 0;
}

int pthread_detach(pthread_t id)
{
    struct thread *t = me, *other = thread_of(id);
    if (t == NULL)
        return mode <= ALONE ? real.pthread_detach(id) : 0;
    if (other == NULL)
        return ESRCH;
    own_lock(t, OBJECT_THREADS);
    if (other->detached)
        return EINVAL;
    other->detached = true;
    if (other->over)
        give_number(other->number);
    return 0;
}

int pthread_cancel(pthread_t id)
{
    if (me == NULL)
        return real.pthread_cancel(id);
    say("octet: pthread_cancel is not followed, and cancels nothing\n");
    return ENOSYS;
}

/* So that the end of the first thread, which may end before others, is found too. */
void pass_key(struct thread *t)
{
    pthread_setspecific(key, t);
}
