/* What the parts of the runtime share. The README of this folder says which part does what. */
#ifndef OCTET_RUNTIME_H
#define OCTET_RUNTIME_H

#ifndef _GNU_SOURCE
#define _GNU_SOURCE
#endif
#include "octet.h"
#include <errno.h>
#include <pthread.h>
#include <signal.h>
#include <stdarg.h>
#include <stdbool.h>
#include <stdint.h>
#include <stdio.h>
#include <stdlib.h>
#include <sys/syscall.h>
#include <time.h>
#include <unistd.h>

#define likely(x) __builtin_expect(!!(x), 1)
#define unlikely(x) __builtin_expect(!!(x), 0)
#define CALLER __builtin_return_address(0)
/* An access of the runtime's own to memory of the program: which line made it is that of the call. */
#define HIDDEN __attribute__((visibility("hidden")))

enum { THREADS = 16 };

/* Statuses with which the runtime ends a process. */
enum { EXIT_UNSET = 97, EXIT_DIVERGED = 99, EXIT_CUT = 98 };

/* STARTING: before the runtime knows. ALONE: the program runs as if the runtime were not there. */
enum mode { STARTING, ALONE, RECORD, AGAIN };

/* Where a thread is. RUNNING: its session is started. RESTING: stopped, in a call that may wait. PARKING, PARKED: it makes no
 * access any more, since the run ends; its session is being ended, or is. */
enum state { UNUSED, RUNNING, RESTING, PARKING, PARKED };

struct thread {
    /* The object that it accessed last, or NO_OBJECT. It has the right to it until its next call of the library. */
    uint32_t last, last_mode, hits;
    /* What is skipped of its own stack. */
    uintptr_t stack_low, stack_size;
    int number;
    int state;
    int task;            /* its number for the system */
    volatile bool inside; /* in a call of the library, or about to make one */
    int away;            /* how many calls that may wait it is in */
    octet_session session;
    uint64_t accesses;   /* of the program, with those that are skipped */
    uint64_t calls;      /* of the library */
    uint64_t made;       /* of these, those that are done */
    uint64_t waits;
    uint64_t foreign;    /* accesses of another thread's stack, which that one skips */
    uint64_t crossing;   /* accesses that lie in two objects */
    uint64_t stop_after; /* in a second run: how many calls it had made when the recording ended */
    bool stops;
    /* The thread of the program. */
    void *(*function)(void *);
    void *argument;
    pthread_t id;
    bool detached, over;
    int rounds;          /* of the destruction at its end */
    /* What calls found outside the program. */
    const uint8_t *inputs;
    size_t inputs_length, inputs_taken;
    int inputs_file;
    void *room;
    size_t room_size;
    /* The access whose value is told, or noted, at the thread's next. */
    struct watched { uintptr_t at; void *from; uint64_t access; int mode; uint32_t size; } watched;
    void *call;          /* where the program calls a lock */
    /* Signals that came, a bit for each, and at how many calls they are handled. */
    uint64_t signals;
    volatile uint64_t signal_at;
    int handles, handled_file;
    const struct handled *handled;
    size_t handled_count, handled_taken;
    struct places { struct place *at; size_t count, length; int file; } places;
} __attribute__((aligned(256)));

extern HIDDEN struct thread threads[THREADS];
extern HIDDEN __thread struct thread *me __attribute__((tls_model("initial-exec")));
extern HIDDEN __thread int arena_number __attribute__((tls_model("initial-exec")));
extern HIDDEN enum mode mode;
extern HIDDEN bool all_stacks;
extern HIDDEN int watch_file;
extern HIDDEN uintptr_t watch_at, watch_size;
extern HIDDEN const char *run_folder;
/* The recording came to the end of its process, and the file of its end is there. */
extern HIDDEN bool recording_is_whole;

/* say.c. The program's calls of `syscall` are followed, and those of the runtime are not. */
HIDDEN long raw_syscall(long number, ...);
#define syscall raw_syscall
HIDDEN int raw_print(char *to, size_t room, const char *format, ...) __attribute__((format(printf, 3, 4)));
#define snprintf raw_print
HIDDEN void say(const char *format, ...) __attribute__((format(printf, 1, 2)));
HIDDEN void say_to(int file, const char *format, ...) __attribute__((format(printf, 2, 3)));
HIDDEN uint64_t take_digits(const char **at, unsigned base);
HIDDEN _Noreturn void leave_process(int status);
HIDDEN void pause_short(unsigned tries);
HIDDEN void raw_copy(void *to, const void *from, size_t length);
HIDDEN void raw_set(void *to, int value, size_t length);
HIDDEN void *map_pages(size_t length);
HIDDEN const uint8_t *map_file(const char *name, size_t *length);

/* addresses.c: where the program's memory is, and its objects. */
#define NO_OBJECT (~0u)
#define SMALL_SIZE 64u
enum {
    GLOBALS = 8192, SMALLS = 2048, LARGES = 1024, STACKS = 64, OTHERS = 4096, LOCKS = 2048, FILES = 64,
    FIRST_GLOBAL = 0,
    FIRST_SMALL = FIRST_GLOBAL + GLOBALS,
    FIRST_LARGE = FIRST_SMALL + THREADS * SMALLS,
    FIRST_STACK = FIRST_LARGE + THREADS * LARGES,
    FIRST_OTHER = FIRST_STACK + THREADS * STACKS,
    FIRST_LOCK = FIRST_OTHER + OTHERS,
    OBJECT_THREADS = FIRST_LOCK + LOCKS,
    OBJECT_STDIO, OBJECT_FILES, OBJECT_RANDOM, OBJECT_SIGNALS,
    FIRST_FILE,
    OBJECTS = FIRST_FILE + FILES
};
_Static_assert(OBJECTS <= 65535, "the library has no more objects");

#define ARENA_FIRST 0x100000000000ul
#define ARENA_BITS 34
enum { ARENA_OF_NOBODY = 16, ARENA_OF_RUNTIME = 17, ARENA_OF_LOADER = 18, ARENAS = 19 };
#define ARENA_END (ARENA_FIRST + ((uintptr_t)ARENAS << ARENA_BITS))
#define STACK_FIRST 0x200000000000ul
#define STACK_BITS 30
#define MAPPED_FIRST 0x300000000000ul
#define MAPPED_BITS 36

extern HIDDEN uintptr_t main_stack_low, main_stack_size;
HIDDEN uint32_t object_of(uintptr_t at);
HIDDEN size_t left_in_object(uintptr_t at);
HIDDEN uint32_t lock_object(const void *lock);
HIDDEN void arenas_begin(void);
HIDDEN void *arena_take(int number, size_t size);
HIDDEN void arena_give(int number, void *block);

/* own.c: the right to an object, by the library. */
HIDDEN void own(struct thread *t, int how, uint32_t object, uint64_t tag, void *from);
HIDDEN void own_lock_from(struct thread *t, uint32_t object, uintptr_t at, void *from);
#define own_lock(t, object) own_lock_from(t, object, object, CALLER)
HIDDEN void access_memory(uintptr_t at, size_t size, int how, void *from);
HIDDEN void access_range(const void *at, size_t length, int how, void *from);
HIDDEN void watch_tell(struct thread *t);
HIDDEN void give_turn(struct thread *t);

/* places.c: where the calls of the library are in the program, and the last accesses of a second run. */
struct place {
    uint64_t at_and_how, from;
};
extern HIDDEN uint64_t places_mask;
extern HIDDEN uint32_t window_most;
extern HIDDEN int report_file;
HIDDEN void places_begin(void);
HIDDEN void places_end(void);
HIDDEN void place_of_call(struct thread *t, int how, uint64_t at, void *from);
HIDDEN void tell_left(const struct thread *t, uint64_t made, int how, uint64_t at, void *from);
HIDDEN void window_note(struct thread *t, const struct watched *access);
HIDDEN void window_settle(struct thread *t, const struct watched *access);
HIDDEN void window_write(void);

/* ends.c: how threads stop, and how the run begins and ends. */
HIDDEN void go_away(struct thread *t);
HIDDEN void come_back(struct thread *t);
HIDDEN _Noreturn void park(struct thread *t);
/* No thread makes a call of the library any more: each stands still before its next. */
extern HIDDEN volatile int closing;
static inline bool is_closing(void)
{
    return closing != 0;
}
/* Seconds of processor time that the thread has used, or 0. */
HIDDEN double processor_of(const struct thread *t);
HIDDEN void ends_begin(void);
HIDDEN void end_run(const char *cause, int number);
HIDDEN void end_by_signal(void);
HIDDEN void end_from_outside(void);
HIDDEN _Noreturn void die_by_signal(int number);

/* marks.c: the thread that takes what is recorded, or feeds what was. */
HIDDEN void marks_begin(const char *folder);
HIDDEN void marks_end(void);
HIDDEN bool marks_take(void);
HIDDEN bool is_helper(void);

/* inputs.c: what calls found outside. */
HIDDEN void inputs_begin(const char *folder);
HIDDEN bool inputs_are_over(const struct thread *t);
HIDDEN void input_bytes(struct thread *t, void *bytes, size_t length);
HIDDEN int64_t input(struct thread *t, int64_t value);
HIDDEN void *room_of(struct thread *t, size_t size);
HIDDEN void copy_tracked(void *to, const void *from, size_t length, void *pc);
HIDDEN void set_tracked(void *to, int value, size_t length, void *pc);
HIDDEN void scatter(void *to, const void *from, size_t length, void *pc);
HIDDEN void gather(void *to, const void *from, size_t length, void *pc);

/* locks.c */
HIDDEN void wake_waiters(volatile int *word, int most);
HIDDEN int wait_change(struct thread *t, volatile int *word, int seen, const struct timespec *until, clockid_t clock);

/* threads.c */
HIDDEN void threads_begin(void);
HIDDEN void pass_key(struct thread *t);

/* files.c */
HIDDEN void files_begin(void);

/* handlers.c: the program's own handlers of signals. */
HIDDEN void handlers_begin(void);
HIDDEN void handle_signals(struct thread *t);

/* signals.c: signals that end the process. */
HIDDEN void signals_begin(void);
HIDDEN bool is_ending(int number);
HIDDEN int signal_is_default(int number);
HIDDEN void signals_of_thread(int number);

/* real.c: the calls of the C library that the runtime stands before. */
#define REAL_CALLS(ROW)                                                                                                  \
    ROW(int, pthread_create, (pthread_t *, const pthread_attr_t *, void *(*)(void *), void *))                           \
    ROW(int, pthread_join, (pthread_t, void **))                                                                         \
    ROW(int, pthread_detach, (pthread_t))                                                                                \
    ROW(int, pthread_mutex_init, (pthread_mutex_t *, const pthread_mutexattr_t *))                                       \
    ROW(int, pthread_mutex_destroy, (pthread_mutex_t *))                                                                 \
    ROW(int, pthread_mutex_lock, (pthread_mutex_t *))                                                                    \
    ROW(int, pthread_mutex_trylock, (pthread_mutex_t *))                                                                 \
    ROW(int, pthread_mutex_timedlock, (pthread_mutex_t *, const struct timespec *))                                      \
    ROW(int, pthread_mutex_clocklock, (pthread_mutex_t *, clockid_t, const struct timespec *))                           \
    ROW(int, pthread_mutex_unlock, (pthread_mutex_t *))                                                                  \
    ROW(int, pthread_spin_init, (pthread_spinlock_t *, int))                                                             \
    ROW(int, pthread_spin_destroy, (pthread_spinlock_t *))                                                               \
    ROW(int, pthread_spin_lock, (pthread_spinlock_t *))                                                                  \
    ROW(int, pthread_spin_trylock, (pthread_spinlock_t *))                                                               \
    ROW(int, pthread_spin_unlock, (pthread_spinlock_t *))                                                                \
    ROW(int, pthread_cond_init, (pthread_cond_t *, const pthread_condattr_t *))                                          \
    ROW(int, pthread_cond_destroy, (pthread_cond_t *))                                                                   \
    ROW(int, pthread_cond_wait, (pthread_cond_t *, pthread_mutex_t *))                                                   \
    ROW(int, pthread_cond_timedwait, (pthread_cond_t *, pthread_mutex_t *, const struct timespec *))                     \
    ROW(int, pthread_cond_clockwait, (pthread_cond_t *, pthread_mutex_t *, clockid_t, const struct timespec *))          \
    ROW(int, pthread_cond_signal, (pthread_cond_t *))                                                                    \
    ROW(int, pthread_cond_broadcast, (pthread_cond_t *))                                                                 \
    ROW(int, pthread_rwlock_init, (pthread_rwlock_t *, const pthread_rwlockattr_t *))                                    \
    ROW(int, pthread_rwlock_destroy, (pthread_rwlock_t *))                                                               \
    ROW(int, pthread_rwlock_rdlock, (pthread_rwlock_t *))                                                                \
    ROW(int, pthread_rwlock_wrlock, (pthread_rwlock_t *))                                                                \
    ROW(int, pthread_rwlock_tryrdlock, (pthread_rwlock_t *))                                                             \
    ROW(int, pthread_rwlock_trywrlock, (pthread_rwlock_t *))                                                             \
    ROW(int, pthread_rwlock_timedrdlock, (pthread_rwlock_t *, const struct timespec *))                                  \
    ROW(int, pthread_rwlock_timedwrlock, (pthread_rwlock_t *, const struct timespec *))                                  \
    ROW(int, pthread_rwlock_clockrdlock, (pthread_rwlock_t *, clockid_t, const struct timespec *))                       \
    ROW(int, pthread_rwlock_clockwrlock, (pthread_rwlock_t *, clockid_t, const struct timespec *))                       \
    ROW(int, pthread_rwlock_unlock, (pthread_rwlock_t *))                                                                \
    ROW(int, pthread_barrier_init, (pthread_barrier_t *, const pthread_barrierattr_t *, unsigned))                       \
    ROW(int, pthread_barrier_destroy, (pthread_barrier_t *))                                                             \
    ROW(int, pthread_barrier_wait, (pthread_barrier_t *))                                                                \
    ROW(int, sem_init, (sem_t *, int, unsigned))                                                                         \
    ROW(int, sem_destroy, (sem_t *))                                                                                     \
    ROW(int, sem_post, (sem_t *))                                                                                        \
    ROW(int, sem_wait, (sem_t *))                                                                                        \
    ROW(int, sem_trywait, (sem_t *))                                                                                     \
    ROW(int, sem_timedwait, (sem_t *, const struct timespec *))                                                          \
    ROW(int, sem_getvalue, (sem_t *, int *))                                                                             \
    ROW(int, pthread_once, (pthread_once_t *, void (*)(void)))                                                           \
    ROW(int, pthread_kill, (pthread_t, int))                                                                             \
    ROW(int, pthread_cancel, (pthread_t))                                                                                \
    ROW(pid_t, fork, (void))                                                                                             \
    ROW(int, vfprintf, (FILE *, const char *, va_list))                                                                  \
    ROW(int, __isoc99_vfscanf, (FILE *, const char *, va_list))                                                          \
    ROW(int, vsnprintf, (char *, size_t, const char *, va_list))                                                         \
    ROW(void, flockfile, (FILE *))                                                                                       \
    ROW(int, ftrylockfile, (FILE *))                                                                                     \
    ROW(void, funlockfile, (FILE *))                                                                                     \
    ROW(FILE *, fdopen, (int, const char *))                                                                             \
    ROW(int, puts, (const char *))                                                                                       \
    ROW(int, fputs, (const char *, FILE *))                                                                              \
    ROW(int, fputc, (int, FILE *))                                                                                       \
    ROW(int, fgetc, (FILE *))                                                                                            \
    ROW(int, ungetc, (int, FILE *))                                                                                      \
    ROW(char *, fgets, (char *, int, FILE *))                                                                            \
    ROW(int, fflush, (FILE *))                                                                                           \
    ROW(size_t, fread, (void *, size_t, size_t, FILE *))                                                                 \
    ROW(size_t, fwrite, (const void *, size_t, size_t, FILE *))                                                          \
    ROW(FILE *, fopen, (const char *, const char *))                                                                     \
    ROW(int, fclose, (FILE *))                                                                                           \
    ROW(size_t, malloc_usable_size, (void *))                                                                            \
    ROW(int, rand, (void))                                                                                               \
    ROW(void, srand, (unsigned))                                                                                         \
    ROW(long, random, (void))                                                                                            \
    ROW(void, srandom, (unsigned))

#include <semaphore.h>
struct real_calls {
#define ROW(result, name, arguments) result(*name) arguments;
    REAL_CALLS(ROW)
#undef ROW
};
extern HIDDEN struct real_calls real;
HIDDEN void real_begin(void);
#endif
