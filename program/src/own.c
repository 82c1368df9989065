/* The right to an object, by the library.
 *
 * From OCTET_READY to the thread's next call of the library no conflicting access of another thread is let pass. So the program
 * makes its real access after the call, and an access of the same object again needs no call, if no other one came between. This
 * rests on the thread's own accesses alone: it is the same in both runs, and so is the number of calls. */
#include "runtime.h"

struct thread threads[THREADS];
__thread struct thread *me __attribute__((tls_model("initial-exec")));
enum mode mode;
bool all_stacks;
int watch_file = -1;
uintptr_t watch_at, watch_size;

/* After so many accesses without a call one is made, so that others need not wait for long. */
enum { MOST_WITHOUT_CALL = 1024 };

static _Noreturn void left_recording(struct thread *t, int32_t status, int how, uint64_t at, void *from, uint64_t made)
{
    if (status == OCTET_OVER || (status == OCTET_HALTED && is_closing()))
        park(t);
    if (status == OCTET_DIVERGED) {
        tell_left(t, made, how, at, from);
    } else if (status == OCTET_HALTED) {
        say("octet: thread %d waits for one that has left its recording, or the recording is damaged\n", t->number);
    } else if (status == OCTET_NO_MEMORY) {
        say("octet: there is no memory for the recording\n");
    } else {
        say("octet: thread %d: the library answers %d at call %lu, from %lx\n", t->number, status, t->calls, (uintptr_t)from);
    }
    leave_process(EXIT_DIVERGED);
}

/* The turn, in a second run: one thread at a time goes on from its call of the library to its next.
 *
 * The library shows an access to other threads at this thread's next call. But memory that lies in two objects takes two calls, and
 * a range as many as it has objects, before the program touches it: at the second the first is shown. So a thread keeps its turn
 * until it is in a call again, or rests. Who waits for marks gives it up: so the thread whose access is the earliest that is not made
 * gets it, and goes on. */
/* The turn is the number of the thread that has it, and one more; or 0. */
static volatile int turn, waiting;
enum { MOST_CALLS_IN_TURN = 256 };

/* After so much of its own processor time without a call a thread has made its access, and only computes: perhaps for good. */
#define COMPUTES 0.2

static bool has_turn(const struct thread *t)
{
    return turn == t->number + 1;
}

/* How a thread that waits has seen the one that has the turn. */
struct sight {
    int holder;
    uint64_t calls;
    double processor;
};

static bool only_computes(struct sight *seen, int holder)
{
    struct thread *t = &threads[holder - 1];
    struct sight now = {holder, *(volatile uint64_t *)&t->calls, processor_of(t)};
    if (!t->inside && now.holder == seen->holder && now.calls == seen->calls)
        return now.processor - seen->processor > COMPUTES;
    *seen = now;
    return false;
}

static void take_turn(struct thread *t)
{
    enum { SPINS = 210 };
    struct sight seen = {0};
    if (has_turn(t))
        return;
    __atomic_fetch_add(&waiting, 1, __ATOMIC_SEQ_CST);
    for (unsigned tries = 0;; tries++) {
        int holder = 0;
        if (__atomic_compare_exchange_n(&turn, &holder, t->number + 1, false, __ATOMIC_SEQ_CST, __ATOMIC_SEQ_CST))
            break;
        if (tries > SPINS && only_computes(&seen, holder))
            __atomic_compare_exchange_n(&turn, &holder, 0, false, __ATOMIC_SEQ_CST, __ATOMIC_SEQ_CST);
        if (is_closing())
            park(t);
        pause_short(tries);
    }
    __atomic_fetch_sub(&waiting, 1, __ATOMIC_SEQ_CST);
}

void give_turn(struct thread *t)
{
    int holder = t->number + 1;
    __atomic_compare_exchange_n(&turn, &holder, 0, false, __ATOMIC_SEQ_CST, __ATOMIC_SEQ_CST);
}

static void keep_turn(struct thread *t)
{
    if (waiting > 0 && t->calls % MOST_CALLS_IN_TURN == 0)
        give_turn(t);
    take_turn(t);
}

static __attribute__((noinline)) void wait_for_right(struct thread *t, int how, uint64_t at, void *from)
{
    uint64_t value = 0;
    int32_t status = OCTET_PENDING;
    for (unsigned tries = 0; status == OCTET_PENDING; tries++) {
        give_turn(t);
        pause_short(tries);
        t->waits++;
        if (mode == AGAIN)
            take_turn(t);
        status = octet_poll(&t->session, &value);
    }
    if (unlikely(status != OCTET_READY))
        left_recording(t, status, how, at, from, value);
}

/* One call of the library. `tag` goes into the digest by which a second run is compared. */
void own(struct thread *t, int how, uint32_t object, uint64_t tag, void *from)
{
    uint64_t value = 0;
    if (unlikely(t->calls >= t->signal_at))
        handle_signals(t);
    t->inside = true;
    /* The thread that ends the run sees that this one is inside, or this one sees that the run ends (`stand` in ends.c). */
    __atomic_signal_fence(__ATOMIC_SEQ_CST);
    if (unlikely(is_closing()) || unlikely(t->stops && t->calls == t->stop_after))
        park(t);
    if (mode == AGAIN)
        keep_turn(t);
    t->calls++;
    if (unlikely((t->calls & places_mask) == 0))
        place_of_call(t, how, tag, from);
    int32_t status = octet_access(&t->session, (uint8_t)how, (uint16_t)object, tag, &value);
    if (unlikely(status == OCTET_PENDING))
        wait_for_right(t, how, tag, from);
    else if (unlikely(status != OCTET_READY))
        left_recording(t, status, how, tag, from, value);
    t->last = object;
    t->last_mode = (uint32_t)how;
    t->hits = 0;
    t->made = t->calls;
    __atomic_signal_fence(__ATOMIC_SEQ_CST);
    t->inside = false;
}

/* The data of a lock, or of a thing of the runtime's that is shared as one. */
void own_lock_from(struct thread *t, uint32_t object, uintptr_t at, void *from)
{
    if (unlikely(t->watched.from != NULL))
        watch_tell(t);
    own(t, OCTET_WRITE, object, at, from);
    if (unlikely(window_most != 0))
        window_note(t, &(struct watched){at, from, t->accesses, OCTET_WRITE, at > OBJECTS ? sizeof(int) : 0});
}

/* What the last watched access has left there: said at the thread's next, when no other thread can have come between. */
void watch_tell(struct thread *t)
{
    struct watched watched = t->watched;
    uint64_t value = 0;
    t->watched.from = NULL;
    if (window_most != 0) {
        window_settle(t, &watched);
        return;
    }
    raw_copy(&value, (void *)watch_at, watch_size > 8 ? 8 : watch_size);
    say_to(watch_file, "%d %lu %s %lx %lx %lu\n", t->number, watched.access, watched.mode ? "write" : "read",
           (uintptr_t)watched.from - 1, watched.at, value);
}

static bool is_watched(uintptr_t at, size_t size)
{
    return at + size - watch_at < watch_size + size && watch_size != 0 && at + size != watch_at;
}

static inline void own_unless_last(struct thread *t, int how, uint32_t object, uintptr_t at, void *from)
{
    if (object == t->last && how <= (int)t->last_mode && ++t->hits < MOST_WITHOUT_CALL)
        return;
    own(t, how, object, at, from);
}

void access_memory(uintptr_t at, size_t size, int how, void *from)
{
    struct thread *t = me;
    if (unlikely(t == NULL))
        return;
    t->accesses++;
    if (unlikely(t->watched.from != NULL))
        watch_tell(t);
    if (at - t->stack_low < t->stack_size)
        return;
    uint32_t object = object_of(at);
    if (unlikely(object - FIRST_STACK < THREADS * STACKS))
        t->foreign++;
    own_unless_last(t, how, object, at, from);
    if (unlikely(size > left_in_object(at))) {
        uint32_t second = object_of(at + size - 1);
        if (second != object) {
            /* The right to the first may be gone with this call. */
            t->crossing++;
            own_unless_last(t, how, second, at + size - 1, from);
        }
    }
    struct watched access = {at, from, t->accesses, how, (uint32_t)size};
    if (unlikely(window_most != 0))
        window_note(t, &access);
    else if (unlikely(is_watched(at, size)))
        t->watched = access;
}

/* Memory that the program touches as a whole after this. */
void access_range(const void *from_here, size_t length, int how, void *from)
{
    uintptr_t at = (uintptr_t)from_here;
    struct thread *t = me;
    if (t == NULL || length == 0)
        return;
    bool is_own = at - t->stack_low < t->stack_size;
    if (length > left_in_object(at) && !is_own)
        t->crossing++;
    while (length > 0) {
        size_t piece = left_in_object(at);
        if (piece > length)
            piece = length;
        access_memory(at, piece, how, from);
        at += piece;
        length -= piece;
    }
}
