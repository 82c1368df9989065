/* Threads of a C program over octet.h, with locks and conditions: as they run, by a schedule that picks who goes on, or run again by a
 * recording. An example: copy it, and make of it what you need. `late.c` uses it.
 *
 * By a schedule one thread moves at a time. Before each access, and each call by which threads meet, a thread waits until it is picked.
 * A lock and a condition are objects of the heap, and each call is an access to its object. So their order is recorded, and a second
 * run has the same one. A lock's object is the number of the thread that holds it, counted from 1, or 0; a condition's is how many
 * threads wait for it.
 *
 * Each call answers a status of octet.h, or THREADS_DEADLOCK, and after another one than OCTET_READY the thread is to return. */
#ifndef OCTET_THREADS_H
#define OCTET_THREADS_H

#include "octet.h"
#include <pthread.h>
#include <sched.h>
#include <string.h>

enum { THREADS_MOST = 16, THREADS_OBJECTS = 64, THREADS_DEADLOCK = -1000 };

/* How threads come to their accesses. */
enum threads_order { THREADS_FREELY, THREADS_BY_TURNS, THREADS_AGAIN };

enum thread_place {
    THREAD_AWAY,  /* not started */
    THREAD_MOVES, /* it was picked, and has not come back */
    THREAD_WAITS, /* it is to be picked */
    THREAD_WANTS, /* it is to be picked once the lock is free */
    THREAD_SLEEPS, /* it waits for a condition */
    THREAD_OVER
};

struct threads;

struct thread {
    octet_session session; /* the first member: no two sessions lie side by side */
    struct threads *all;
    void *given; /* what `threads_run` was given */
    int number;
    int32_t status; /* the first one that is not OCTET_READY */
    uint64_t made;  /* accesses, after OCTET_DIVERGED */
    void (*work)(struct thread *);
    /* By turns, and freely: */
    enum thread_place place;
    uint16_t lock, condition; /* that it wants, or sleeps for */
    uint64_t since;           /* when it began to sleep */
    pthread_cond_t turned;
    pthread_t thread;
};

struct threads {
    enum threads_order order;
    int count, is_stuck;
    int last; /* the thread that was picked last */
    octet_turns turns;
    pthread_mutex_t mutex;
    int holders[THREADS_OBJECTS]; /* who holds each lock, counted from 1 */
    uint64_t sleeps;              /* how often a thread began to sleep */
    struct thread each[THREADS_MOST];
};

/* The turnstile. Its mutex is held in these. */

static inline int thread_may_move(const struct thread *t) {
    return t->place == THREAD_WAITS || (t->place == THREAD_WANTS && !t->all->holders[t->lock]);
}

static inline void threads_wake_all(struct threads *all) {
    for (int i = 0; i < all->count; i++) pthread_cond_signal(&all->each[i].turned);
}

/* Picks a thread, once none moves. Where none can, though some are not over, they wait for each other. */
static inline void threads_turn(struct threads *all) {
    uint8_t ready[THREADS_MOST] = {0}, picked = 0;
    int over = 0;
    for (int i = 0; i < all->count; i++) {
        enum thread_place place = all->each[i].place;
        if (place == THREAD_AWAY || place == THREAD_MOVES) return;
        ready[i] = (uint8_t)thread_may_move(&all->each[i]);
        over += place == THREAD_OVER;
    }
    if (octet_pick(&all->turns, ready, (size_t)all->count, &picked) == OCTET_READY) {
        struct thread *t = &all->each[picked];
        if (t->place == THREAD_WANTS) all->holders[t->lock] = t->number + 1;
        t->place = THREAD_MOVES;
        all->last = picked;
        pthread_cond_signal(&t->turned);
    } else if (over < all->count) {
        all->is_stuck = 1;
        threads_wake_all(all);
    }
}

/* Freely a thread moves as soon as it may. */
static inline int thread_is_moving(struct thread *t) {
    if (t->all->order == THREADS_FREELY && thread_may_move(t)) {
        if (t->place == THREAD_WANTS) t->all->holders[t->lock] = t->number + 1;
        t->place = THREAD_MOVES;
    }
    return t->place == THREAD_MOVES;
}

/* Puts the thread there, and waits until it may move. Nobody waits for it meanwhile. `frees` is a lock that it frees first, or -1. */
static inline int32_t thread_go(struct thread *t, enum thread_place place, int frees) {
    struct threads *all = t->all;
    if (all->order == THREADS_AGAIN) return OCTET_READY;
    int32_t status = octet_stop(&t->session);
    if (status != OCTET_READY) return status;
    pthread_mutex_lock(&all->mutex);
    if (frees >= 0) all->holders[frees] = 0;
    if (place == THREAD_SLEEPS) t->since = ++all->sleeps;
    t->place = place;
    if (all->order == THREADS_BY_TURNS) threads_turn(all);
    else threads_wake_all(all);
    while (!thread_is_moving(t) && !all->is_stuck) pthread_cond_wait(&t->turned, &all->mutex);
    int moves = t->place == THREAD_MOVES;
    pthread_mutex_unlock(&all->mutex);
    status = octet_start(&t->session);
    return moves ? status : THREADS_DEADLOCK;
}

/* Waits until the thread is picked, where threads take turns. */
static inline int32_t thread_pass(struct thread *t) {
    return t->all->order == THREADS_BY_TURNS ? thread_go(t, THREAD_WAITS, -1) : OCTET_READY;
}

/* Accesses. */

static inline int32_t thread_made(struct thread *t, int32_t status, uint64_t *out) {
    for (int polls = 0; status == OCTET_PENDING; status = octet_poll(&t->session, out))
        if (++polls > 100) sched_yield();
    if (status == OCTET_DIVERGED) t->made = *out;
    return status;
}

/* In these the thread is picked already. */
static inline int32_t thread_access_now(struct thread *t, enum octet_mode mode, uint16_t object, uint64_t value, uint64_t *out) {
    return thread_made(t, octet_access(&t->session, (uint8_t)mode, object, value, out), out);
}

static inline int32_t thread_update_now(struct thread *t, enum octet_change change, uint16_t object, uint64_t operand,
                                        uint64_t expected, uint64_t *out) {
    return thread_made(t, octet_update(&t->session, (uint8_t)change, object, operand, expected, out), out);
}

static inline int32_t thread_read(struct thread *t, uint16_t object, uint64_t *out) {
    int32_t status = thread_pass(t);
    return status == OCTET_READY ? thread_access_now(t, OCTET_READ, object, 0, out) : status;
}

static inline int32_t thread_write(struct thread *t, uint16_t object, uint64_t value) {
    uint64_t out = 0;
    int32_t status = thread_pass(t);
    return status == OCTET_READY ? thread_access_now(t, OCTET_WRITE, object, value, &out) : status;
}

/* `out` is the value found. */
static inline int32_t thread_update(struct thread *t, enum octet_change change, uint16_t object, uint64_t operand, uint64_t expected,
                                    uint64_t *out) {
    int32_t status = thread_pass(t);
    return status == OCTET_READY ? thread_update_now(t, change, object, operand, expected, out) : status;
}

/* Locks and conditions: objects below THREADS_OBJECTS, which start at 0. */

static inline int32_t thread_lock(struct thread *t, uint16_t lock) {
    uint64_t out = 0;
    t->lock = lock;
    int32_t status = thread_go(t, THREAD_WANTS, -1);
    if (status != OCTET_READY) return status;
    return thread_update_now(t, OCTET_SWAP, lock, (uint64_t)t->number + 1, 0, &out);
}

static inline int32_t thread_unlock(struct thread *t, uint16_t lock) {
    int32_t status = thread_write(t, lock, 0);
    pthread_mutex_lock(&t->all->mutex);
    t->all->holders[lock] = 0;
    if (t->all->order == THREADS_FREELY) threads_wake_all(t->all);
    pthread_mutex_unlock(&t->all->mutex);
    return status;
}

/* Frees the lock, waits until another thread notifies the condition, and takes the lock again. Ask then whether what you wait for is
 * so: another thread may have come first. */
static inline int32_t thread_wait(struct thread *t, uint16_t condition, uint16_t lock) {
    uint64_t out = 0;
    int32_t status = thread_pass(t);
    if (status == OCTET_READY) status = thread_update_now(t, OCTET_ADD, condition, 1, 0, &out);
    if (status == OCTET_READY) status = thread_access_now(t, OCTET_WRITE, lock, 0, &out);
    if (status != OCTET_READY) return status;
    t->condition = condition, t->lock = lock;
    status = thread_go(t, THREAD_SLEEPS, lock);
    if (status != OCTET_READY) return status;
    return thread_update_now(t, OCTET_SWAP, lock, (uint64_t)t->number + 1, 0, &out);
}

/* Wakes the one that has slept longest for the condition. Freely it may be counted, and not sleep yet. */
static inline int threads_wake_one(struct threads *all, uint16_t condition) {
    struct thread *first = NULL;
    for (int i = 0; i < all->count; i++) {
        struct thread *t = &all->each[i];
        if (t->place == THREAD_SLEEPS && t->condition == condition && (!first || t->since < first->since)) first = t;
    }
    if (!first) return 0;
    first->place = THREAD_WANTS;
    pthread_cond_signal(&first->turned);
    return 1;
}

static inline void threads_wake(struct threads *all, uint16_t condition, uint64_t count) {
    if (all->order == THREADS_AGAIN) return;
    pthread_mutex_lock(&all->mutex);
    while (count > 0) {
        if (threads_wake_one(all, condition)) {
            count--;
            continue;
        }
        pthread_mutex_unlock(&all->mutex);
        sched_yield();
        pthread_mutex_lock(&all->mutex);
    }
    pthread_mutex_unlock(&all->mutex);
}

static inline int32_t thread_notify_all(struct thread *t, uint16_t condition) {
    uint64_t waiting = 0;
    int32_t status = thread_update(t, OCTET_SWAP, condition, 0, 0, &waiting);
    if (status == OCTET_READY) threads_wake(t->all, condition, waiting);
    return status;
}

static inline int32_t thread_notify_one(struct thread *t, uint16_t condition) {
    uint64_t waiting = 0, found = 0;
    int32_t status = thread_read(t, condition, &waiting);
    while (status == OCTET_READY && waiting > 0) {
        status = thread_update_now(t, OCTET_COMPARE_EXCHANGE, condition, waiting - 1, waiting, &found);
        if (status == OCTET_READY && found == waiting) {
            threads_wake(t->all, condition, 1);
            break;
        }
        waiting = found;
    }
    return status;
}

/* A run. */

/* Where each thread has its session, of 1 to 16 threads. */
static inline int32_t threads_sessions(struct threads *all, int count, octet_session **sessions) {
    if (count < 1 || count > THREADS_MOST) return OCTET_BAD_SIZE;
    memset(all, 0, sizeof *all);
    for (int i = 0; i < count; i++) sessions[i] = &all->each[i].session;
    return OCTET_READY;
}

/* Makes the threads ready to run, once they have their sessions. */
static inline int32_t threads_take(struct threads *all, int32_t status, int count, enum threads_order order) {
    if (status != OCTET_READY) return status;
    all->order = order, all->count = count;
    pthread_mutex_init(&all->mutex, NULL);
    for (int i = 0; i < count; i++) {
        all->each[i].all = all, all->each[i].number = i;
        pthread_cond_init(&all->each[i].turned, NULL);
    }
    return status;
}

/* Opens a heap as the text declares it, for 1 to 16 threads, which run as they do. */
static inline int32_t threads_open(struct threads *all, const char *text, int count) {
    octet_session *sessions[THREADS_MOST];
    int32_t status = threads_sessions(all, count, sessions);
    if (status == OCTET_READY) status = octet_open_each((const uint8_t *)text, strlen(text), sessions, (size_t)count);
    return threads_take(all, status, count, THREADS_FREELY);
}

/* The same, by the schedule of this seed. */
static inline int32_t threads_open_by(struct threads *all, const char *text, int count, enum octet_way way, uint64_t seed,
                                      uint32_t most) {
    octet_turns turns = {0};
    int32_t status = octet_schedule(&turns, (uint8_t)way, seed, most);
    if (status == OCTET_READY) status = threads_open(all, text, count);
    if (status != OCTET_READY) {
        octet_free(&turns);
        return status;
    }
    all->order = THREADS_BY_TURNS, all->turns = turns;
    return status;
}

/* Opens a recording, to run its threads again. */
static inline int32_t threads_follow(struct threads *all, const uint8_t *script, size_t length, const uint8_t *log,
                                     size_t log_length, int count) {
    octet_session *sessions[THREADS_MOST];
    int32_t status = threads_sessions(all, count, sessions);
    if (status == OCTET_READY) status = octet_follow_each(script, length, log, log_length, sessions, (size_t)count);
    return threads_take(all, status, count, THREADS_AGAIN);
}

static inline void *thread_begin(void *argument) {
    struct thread *t = (struct thread *)argument;
    uint64_t out = 0;
    t->status = octet_start(&t->session);
    if (t->status == OCTET_READY) t->status = thread_pass(t);
    if (t->status == OCTET_READY) t->work(t);
    /* Its end is a step of its own. */
    int32_t status = thread_pass(t), ended = octet_end(&t->session, &out);
    for (; ended == OCTET_PENDING; ended = octet_end(&t->session, &out)) sched_yield();
    if (ended != OCTET_READY) octet_stop(&t->session);
    if (t->status == OCTET_READY) t->status = status == OCTET_READY ? ended : status;
    pthread_mutex_lock(&t->all->mutex);
    t->place = THREAD_OVER;
    if (t->all->order == THREADS_BY_TURNS && !t->all->is_stuck) threads_turn(t->all);
    pthread_mutex_unlock(&t->all->mutex);
    return NULL;
}

/* Runs all threads to their ends, each with what is given, and puts the record of their run behind the handle. Each thread's status
 * stays in `each`. Where no thread can be started, the answer is OCTET_NO_MEMORY. */
static inline int32_t threads_run(struct threads *all, void (*work)(struct thread *), void *given, octet_record *record) {
    octet_session *sessions[THREADS_MOST];
    int started = 0;
    for (int i = 0; i < all->count; i++) {
        struct thread *t = &all->each[i];
        t->work = work, t->given = given;
        t->place = all->order == THREADS_BY_TURNS ? THREAD_AWAY : THREAD_MOVES;
    }
    for (; started < all->count; started++) {
        struct thread *t = &all->each[started];
        if (pthread_create(&t->thread, NULL, thread_begin, t)) break;
    }
    if (started < all->count) {
        pthread_mutex_lock(&all->mutex);
        all->is_stuck = 1;
        threads_wake_all(all);
        pthread_mutex_unlock(&all->mutex);
    }
    for (int i = 0; i < started; i++) pthread_join(all->each[i].thread, NULL);
    for (int i = 0; i < all->count; i++) sessions[i] = &all->each[i].session, pthread_cond_destroy(&all->each[i].turned);
    pthread_mutex_destroy(&all->mutex);
    octet_free(&all->turns);
    int32_t status = octet_close_each(sessions, (size_t)all->count, record);
    return started < all->count ? OCTET_NO_MEMORY : status;
}

#endif
