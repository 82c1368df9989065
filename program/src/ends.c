/* How threads stop, and how the run ends: by exit, by a signal, or where a recording was cut.
 *
 * At the end of a recording each other thread stands still: one that runs at its next call of the library, one that rests where it
 * rests, and one that makes no call for long where it is. How many calls each had made is kept. A second run ends once each thread
 * has made these, and then they stand still in the same way. So what the ending thread can have seen of the others is made again,
 * and nothing more; and a thread that the end cuts off has not left its recording. */
#include "runtime.h"
#include <fcntl.h>
#include <linux/membarrier.h>

volatile int closing;
/* A thread ends the run. */
static int begun;
bool recording_is_whole;
static char recorded_cause[64];
static int recorded_number = -1;
static uint64_t recorded_calls[THREADS];
/* The thread was stopped where it was, since it made no call. */
static bool recorded_cut[THREADS], cut[THREADS];

/* How long a thread is waited for that makes no call; when the user is told of a wait that has no limit; and how long no thread goes
 * on until it is taken that none can. */
enum { SECONDS_FOR_OTHERS = 3, SECONDS_COMPUTING = 1, SECONDS_UNTIL_TOLD = 10, SECONDS_STUCK = 30 };

static _Noreturn void stand_still(void)
{
    for (;;)
        syscall(SYS_pause);
}

static int state_of(const struct thread *t)
{
    return __atomic_load_n(&t->state, __ATOMIC_SEQ_CST);
}

static bool change_state(struct thread *t, int from, int to)
{
    return __atomic_compare_exchange_n(&t->state, &from, to, false, __ATOMIC_SEQ_CST, __ATOMIC_SEQ_CST);
}

static void step_inside(struct thread *t)
{
    t->inside = true;
    __atomic_signal_fence(__ATOMIC_SEQ_CST);
}

/* Before a call that may wait: no other thread waits for this one meanwhile, and nothing of it is followed. */
void go_away(struct thread *t)
{
    if (t->away++ > 0)
        return;
    step_inside(t);
    if (is_closing())
        park(t);
    if (t->watched.from != NULL)
        watch_tell(t);
    t->last = NO_OBJECT;
    me = NULL;
    octet_stop(&t->session);
    give_turn(t);
    __atomic_store_n(&t->state, RESTING, __ATOMIC_SEQ_CST);
    t->inside = false;
}

void come_back(struct thread *t)
{
    if (--t->away > 0)
        return;
    step_inside(t);
    if (is_closing() || !change_state(t, RESTING, RUNNING)) {
        t->inside = false;
        stand_still();
    }
    t->last = NO_OBJECT;
    int32_t status = octet_start(&t->session);
    if (status != OCTET_READY) {
        say("octet: thread %d cannot go on: the library answers %d\n", t->number, status);
        leave_process(EXIT_UNSET);
    }
    me = t;
    __atomic_signal_fence(__ATOMIC_SEQ_CST);
    t->inside = false;
}

/* Ends a session that is started. What is left of it is taken by the helper, or here, where this is the helper. */
static int32_t end_session(struct thread *t, uint64_t *made)
{
    int32_t status;
    for (unsigned tries = 0; (status = octet_end(&t->session, made)) == OCTET_PENDING; tries++) {
        if (is_helper())
            marks_take();
        pause_short(tries);
    }
    return status;
}

static void tell_end(const struct thread *t, int32_t status, uint64_t made)
{
    if (status == OCTET_READY || (status == OCTET_OVER && !recording_is_whole))
        return;
    say("octet: thread %d leaves its recording before its end: it was by it for %lu of %lu calls\n", t->number, made, t->calls);
    tell_left(t, made, 0, 0, NULL);
    leave_process(EXIT_DIVERGED);
}

static void end_followed(struct thread *t)
{
    uint64_t made = 0;
    if (mode == RECORD)
        end_session(t, &made);
    else if (recording_is_whole)
        tell_end(t, end_session(t, &made), made);
    else
        octet_stop(&t->session);
}

_Noreturn void park(struct thread *t)
{
    /* The thread that ends the run may have stopped this one. */
    if (!change_state(t, RUNNING, PARKING))
        stand_still();
    if (t->watched.from != NULL)
        watch_tell(t);
    end_followed(t);
    give_turn(t);
    __atomic_store_n(&t->state, PARKED, __ATOMIC_SEQ_CST);
    t->inside = false;
    stand_still();
}

static double seconds(void)
{
    struct timespec now;
    syscall(SYS_clock_gettime, CLOCK_MONOTONIC, &now);
    return (double)now.tv_sec + (double)now.tv_nsec / 1e9;
}

static void wait_a_little(unsigned tries)
{
    if (is_helper() && mode == RECORD)
        marks_take();
    pause_short(tries);
}

static uint64_t made_by(const struct thread *t)
{
    return __atomic_load_n(&t->made, __ATOMIC_ACQUIRE);
}

double processor_of(const struct thread *t)
{
    enum { OF_THREAD = 6 };
    struct timespec used = {0, 0};
    syscall(SYS_clock_gettime, (long)(clockid_t)(~(unsigned)t->task << 3 | OF_THREAD), &used);
    return (double)used.tv_sec + (double)used.tv_nsec / 1e9;
}

/* A thread may have slept, or not have begun, when the recording ended, and compute for good in a second run, where it waits for
 * nothing. It is known by the processor time that it has used since it made its last call, since on a busy machine it may get none. */
static bool computes(int i, double most)
{
    static double since[THREADS];
    static uint64_t seen[THREADS];
    double used = processor_of(&threads[i]);
    uint64_t calls = *(volatile uint64_t *)&threads[i].calls;
    if (threads[i].inside || since[i] == 0 || calls != seen[i])
        since[i] = used;
    seen[i] = calls;
    return used - since[i] > most;
}

/* In a second run: whether the thread has made all that was recorded, and stands where it stood, or makes no call. */
static bool has_come(int i)
{
    if (made_by(&threads[i]) < recorded_calls[i])
        return false;
    int state = state_of(&threads[i]);
    return recorded_cut[i] || (state != RUNNING && state != PARKING) || (state == RUNNING && computes(i, SECONDS_COMPUTING));
}

/* Each thread waits for nothing but marks, so this has no limit of time; but where it is not known what was recorded. */
static void wait_for_recorded(int number)
{
    double told = seconds() + SECONDS_UNTIL_TOLD, until = seconds() + (recording_is_whole ? 1e9 : SECONDS_FOR_OTHERS);
    for (int i = 0; i < THREADS; i++) {
        for (unsigned tries = 0; i != number && !has_come(i) && seconds() < until; tries++) {
            wait_a_little(tries);
            if (seconds() > told) {
                say("octet: the end waits for thread %d, which has made %lu of its %lu calls\n", i, made_by(&threads[i]), recorded_calls[i]);
                told += 1e9;
            }
        }
    }
}

/* The fence of each thread that is running: from here on each sees that the run closes, or is seen to be inside. */
static void close_run(void)
{
    __atomic_store_n(&closing, 1, __ATOMIC_SEQ_CST);
    if (syscall(SYS_membarrier, MEMBARRIER_CMD_PRIVATE_EXPEDITED, 0, 0) != 0)
        syscall(SYS_membarrier, MEMBARRIER_CMD_GLOBAL, 0, 0);
}

/* Takes the session of a thread that stands or makes no call. Whether there is one to be ended here. */
static bool take_session(struct thread *t, int i, bool late)
{
    if (change_state(t, RESTING, PARKING) || change_state(t, UNUSED, PARKING)) {
        octet_start(&t->session);
        return true;
    }
    cut[i] = late && !__atomic_load_n(&t->inside, __ATOMIC_SEQ_CST) && change_state(t, RUNNING, PARKING);
    return cut[i];
}

/* Whether the thread stands still now. */
static bool end_other(int i, bool late)
{
    struct thread *t = &threads[i];
    if (state_of(t) == PARKED)
        return true;
    if (!take_session(t, i, recorded_cut[i] || late))
        return false;
    end_followed(t);
    __atomic_store_n(&t->state, PARKED, __ATOMIC_SEQ_CST);
    return true;
}

/* Waits until all others stand still. They are looked at in turn, since one may wait for another. */
static void end_others(int number)
{
    double until = seconds() + SECONDS_FOR_OTHERS;
    bool all = false;
    for (unsigned tries = 0; !all; tries++) {
        all = true;
        for (int i = 0; i < THREADS; i++)
            all = (i == number || end_other(i, seconds() > until)) && all;
        if (!all)
            wait_a_little(tries);
    }
}

static void write_end(const char *cause, int number)
{
    char name[4096];
    uint64_t foreign = 0, crossing = 0;
    snprintf(name, sizeof name, "%s/end", run_folder);
    int file = (int)syscall(SYS_open, name, O_WRONLY | O_CREAT | O_TRUNC, 0600);
    for (int i = 0; i < THREADS; i++) {
        say_to(file, "thread %d calls %lu cut %d accesses %lu\n", i, threads[i].made, cut[i], threads[i].accesses);
        foreign += threads[i].foreign;
        crossing += threads[i].crossing;
    }
    say_to(file, "end %d %s\n", number, cause);
    syscall(SYS_close, file);
    if (foreign > 0 && !all_stacks)
        say("octet: %lu accesses were of another thread's stack, whose owner is not followed there: a race on one may come out"
            " differently in a second run; octet-record --stacks follows all\n", foreign);
    if (crossing > 0)
        say("octet: %lu accesses lay in two objects at once: a race on one may come out differently in a second run\n", crossing);
}

/* Whether the line goes on with this word, which is taken. */
static bool take_name(const char **line, const char *name)
{
    const char *at = *line;
    while (*at == ' ')
        at++;
    for (; *name != 0; name++, at++)
        if (*at != *name)
            return false;
    *line = at;
    return true;
}

static void read_line(const char *line)
{
    if (take_name(&line, "thread")) {
        uint64_t number = take_digits(&line, 10);
        if (number >= THREADS || !take_name(&line, "calls"))
            return;
        recorded_calls[number] = take_digits(&line, 10);
        recorded_cut[number] = take_name(&line, "cut") && take_digits(&line, 10) != 0;
    } else if (take_name(&line, "end")) {
        bool from_outside = take_name(&line, "-1");
        recorded_number = from_outside ? -1 : (int)take_digits(&line, 10);
        snprintf(recorded_cause, sizeof recorded_cause, "%s", *line == ' ' ? line + 1 : line);
        recording_is_whole = true;
    }
}

void ends_begin(void)
{
    char name[4096], line[256];
    size_t length, filled = 0;
    syscall(SYS_membarrier, MEMBARRIER_CMD_REGISTER_PRIVATE_EXPEDITED, 0, 0);
    if (mode != AGAIN)
        return;
    snprintf(name, sizeof name, "%s/end", run_folder);
    const uint8_t *text = map_file(name, &length);
    for (size_t i = 0; text != NULL && i < length; i++) {
        if (text[i] != '\n' && filled < sizeof line - 1) {
            line[filled++] = (char)text[i];
            continue;
        }
        line[filled] = 0;
        filled = 0;
        read_line(line);
    }
    for (int i = 0; i < THREADS && recording_is_whole; i++) {
        threads[i].stops = i != recorded_number;
        threads[i].stop_after = recorded_calls[i];
    }
}

/* In a second run the end has to be the recorded one. */
static void compare_end(const char *cause, int number)
{
    if (!recording_is_whole)
        say("octet: the program ends here (%s), and its recording ended before\n", cause);
    else if (number != recorded_number || __builtin_strcmp(cause, recorded_cause) != 0) {
        say("octet: the program ends by thread %d (%s); it was recorded that it ends by thread %d (%s)\n", number, cause,
            recorded_number, recorded_cause);
        leave_process(EXIT_DIVERGED);
    }
}

void end_run(const char *cause, int number)
{
    if (__atomic_exchange_n(&begun, 1, __ATOMIC_SEQ_CST))
        stand_still();
    if (me != NULL && me->watched.from != NULL)
        watch_tell(me);
    me = NULL;
    if (mode == AGAIN)
        compare_end(cause, number);
    arena_number = ARENA_OF_RUNTIME;
    if (number >= 0) {
        /* First, since others may wait for this one. */
        end_followed(&threads[number]);
        give_turn(&threads[number]);
        __atomic_store_n(&threads[number].state, PARKED, __ATOMIC_SEQ_CST);
    }
    if (mode == AGAIN)
        wait_for_recorded(number);
    close_run();
    end_others(number);
    places_end();
    if (mode == RECORD)
        write_end(cause, number);
    window_write();
    marks_end();
    arena_number = number < 0 ? 0 : number;
}

/* Whether no thread goes on: each stands still or rests, or waits for marks and has made no call since the last look. Where a recording
 * was cut, a thread that computes without a call for long is not waited for. */
static bool all_stand(void)
{
    static uint64_t calls_before, waits_before[THREADS];
    uint64_t calls = 0;
    bool works = false;
    for (int i = 0; i < THREADS; i++) {
        struct thread *t = &threads[i];
        uint64_t waits = *(volatile uint64_t *)&t->waits;
        calls += *(volatile uint64_t *)&t->calls;
        bool is_left = !recording_is_whole && computes(i, SECONDS_STUCK);
        works = works || (state_of(t) == RUNNING && waits == waits_before[i] && !is_left);
        waits_before[i] = waits;
    }
    works = works || calls != calls_before;
    calls_before = calls;
    return !works;
}

static bool any_is(int state)
{
    for (int i = 0; i < THREADS; i++)
        if (state_of(&threads[i]) == state)
            return true;
    return false;
}

/* In a second run of a whole recording a thread can always go on, unless one has left its recording and it was not seen yet. */
static void tell_stuck(void)
{
    static double since;
    if (!all_stand() || !any_is(RUNNING)) {
        since = 0;
        return;
    }
    if (since == 0)
        since = seconds();
    if (seconds() - since < SECONDS_STUCK)
        return;
    say("octet: no thread can go on, since one has left its recording\n");
    for (int i = 0; i < THREADS; i++)
        if (state_of(&threads[i]) == RESTING && made_by(&threads[i]) < recorded_calls[i])
            tell_left(&threads[i], 0, 0, 0, NULL);
    leave_process(EXIT_DIVERGED);
}

static bool all_have_come(void)
{
    for (int i = 0; i < THREADS; i++)
        if (!has_come(i))
            return false;
    return true;
}

static _Noreturn void end_as_recorded(void)
{
    const char *cause = recorded_cause;
    int number = take_name(&cause, "signal") ? (int)take_digits(&cause, 10) : 0;
    say("octet: signal %d ended the process here, from outside\n", number);
    end_run(recorded_cause, -1);
    die_by_signal(number);
}

/* Called by the helper of a second run from time to time: the end may be none of the program's. Where the recording was cut, threads
 * stand still that have no more, and other ones wait for them for good. */
void end_from_outside(void)
{
    enum { LOOKS = 10 };
    static int looks;
    if (__atomic_load_n(&begun, __ATOMIC_SEQ_CST))
        return;
    if (recording_is_whole && recorded_number < 0 && recorded_cause[0] == 's' && all_have_come())
        end_as_recorded();
    if (recording_is_whole) {
        tell_stuck();
        return;
    }
    looks = all_stand() && any_is(PARKED) ? looks + 1 : 0;
    if (looks < LOOKS)
        return;
    window_write();
    say("octet: the recording ends here: the process that was recorded was ended from outside\n");
    leave_process(EXIT_CUT);
}
