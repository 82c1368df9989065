// Threads that make the same accesses by Octet's C library, on atomic words, or behind a mutex for each word. bench/run
// --native builds and calls it: `native HOW KIND THREADS ACCESSES RUNS` says how many nanoseconds an access takes its thread,
// in the mean over runs of so many accesses each: of its processor, and by the clock. HOW is marks, a run of any length, which
// goes into a file meanwhile; script, a run that is kept as one, of 87,381 accesses at most; atomic or mutex. KIND is read or
// update, of a word for each thread; shared, reads of one word by all; wanted, updates of one word by all. An update adds 1.
#include <pthread.h>
#include <sched.h>
#include <stdatomic.h>
#include <stdint.h>
#include <stdio.h>
#include <stdlib.h>
#include <string.h>
#include <time.h>

#ifndef PLAIN
#include "octet.h"
#endif

enum { MAX_THREADS = 16 };

// Each has lines of the processor's cache to itself.
struct word {
    _Alignas(128) _Atomic uint64_t atomic;
    _Alignas(128) pthread_mutex_t mutex;
    uint64_t plain;
};

// In nanoseconds.
struct times {
    uint64_t processor, clock;
};

struct worker {
    int number;
    struct times took;
};

static struct word words[MAX_THREADS];
static pthread_barrier_t all;
static enum { MARKS, SCRIPT, ATOMIC, MUTEX } how;
static int is_update, is_shared;
static uint64_t count, kept[MAX_THREADS];

static void fail(const char *what) {
    fprintf(stderr, "native: %s\n", what);
    exit(1);
}

static uint64_t now_by(clockid_t clock) {
    struct timespec time;
    clock_gettime(clock, &time);
    return (uint64_t)time.tv_sec * 1000000000u + (uint64_t)time.tv_nsec;
}

static struct times now(void) { return (struct times){now_by(CLOCK_THREAD_CPUTIME_ID), now_by(CLOCK_MONOTONIC)}; }

static uint64_t on_atomic(struct word *word) {
    uint64_t sum = 0;
    for (uint64_t left = count; left; left--)
        sum += is_update ? atomic_fetch_add(&word->atomic, 1) : atomic_load(&word->atomic);
    return sum;
}

static uint64_t behind_mutex(struct word *word) {
    uint64_t sum = 0;
    for (uint64_t left = count; left; left--) {
        pthread_mutex_lock(&word->mutex);
        sum += word->plain;
        if (is_update) word->plain++;
        pthread_mutex_unlock(&word->mutex);
    }
    return sum;
}

#ifdef PLAIN
static uint64_t in_session(int number) {
    (void)number;
    fail("built without the library");
    return 0;
}

static void start_session(int number) { (void)number; }

static void end_session(int number) { (void)number; }

static void open_heap(int threads) { (void)threads; }

static void take_marks(int threads) { (void)threads; }

static void close_heap(int threads) { (void)threads; }
#else
static octet_session sessions[MAX_THREADS];
static octet_stream streams[MAX_THREADS];
static FILE *file;

static void start_session(int number) {
    if (octet_start(&sessions[number]) != OCTET_READY) fail("no start");
}

static void end_session(int number) {
    uint64_t made = 0;
    int32_t status = octet_end(&sessions[number], &made);
    while (status == OCTET_PENDING) {
        sched_yield();
        status = octet_end(&sessions[number], &made);
    }
    if (status != OCTET_READY) fail("no end");
}

static uint64_t in_session(int number) {
    /* On the thread's own stack, since each call writes to its handle. */
    octet_session own = sessions[number], *session = &own;
    uint16_t object = is_shared ? 0 : (uint16_t)number;
    uint64_t sum = 0, out = 0;
    for (uint64_t left = count; left; left--) {
        int32_t status = is_update ? octet_update(session, OCTET_ADD, object, 1, 0, &out)
                                   : octet_access(session, OCTET_READ, object, 0, &out);
        for (int round = 0; status == OCTET_PENDING; round++) {
            if (round > 100) sched_yield();
            status = octet_poll(session, &out);
        }
        if (status != OCTET_READY) fail("an access is refused");
        sum += out;
    }
    sessions[number] = own;
    return sum;
}

static void open_script(int threads) {
    char text[2048];
    int length = sprintf(text, "fuel %d\n", 262144 / threads);
    for (int object = 0; object < threads; object++) length += sprintf(text + length, "object x%d 0\n", object);
    for (int thread = 0; thread < threads; thread++) length += sprintf(text + length, "thread\n");
    if (octet_open((const uint8_t *)text, (size_t)length, sessions, (size_t)threads) != OCTET_READY) fail("no heap");
}

static void open_marks(int threads) {
    static const uint64_t starts[MAX_THREADS];
    static const uint8_t declared[] = "native";
    uint8_t head[256];
    size_t objects = (size_t)threads, length = 0;
    file = tmpfile();
    if (!file) fail("no file");
    if (octet_head(starts, objects, (uint8_t)threads, declared, sizeof declared, head, sizeof head, &length) != OCTET_READY ||
        fwrite(head, 1, length, file) != length)
        fail("no head");
    if (octet_open_long(starts, objects, sessions, objects, streams, objects) != OCTET_READY) fail("no heap");
}

static void open_heap(int threads) { how == MARKS ? open_marks(threads) : open_script(threads); }

// Until the threads have ended.
static void take_marks(int threads) {
    static uint8_t piece[65536];
    const struct timespec rest = {0, 200000};
    for (int over = 0; over < threads;) {
        int some = over = 0;
        for (int thread = 0; thread < threads; thread++) {
            size_t length = 0;
            int32_t status = octet_take(&streams[thread], piece, sizeof piece, &length);
            if (status == OCTET_OVER) over++;
            else if (status == OCTET_READY && fwrite(piece, 1, length, file) == length) some = 1;
            else if (status != OCTET_PENDING) fail("the marks could not be taken, or not be written");
        }
        if (!some) nanosleep(&rest, NULL);
    }
}

static void close_heap(int threads) {
    octet_record record = {0};
    if (octet_close(sessions, (size_t)threads, &record) != OCTET_READY) fail("no record");
    octet_free(&record);
    if (how == MARKS && fclose(file)) fail("the marks could not be written");
}
#endif

static void *work(void *argument) {
    struct worker *worker = argument;
    int number = worker->number, is_recorded = how == MARKS || how == SCRIPT;
    struct word *word = &words[is_shared ? 0 : number];
    if (is_recorded) start_session(number);
    pthread_barrier_wait(&all);
    struct times start = now();
    kept[number] += is_recorded ? in_session(number) : how == ATOMIC ? on_atomic(word) : behind_mutex(word);
    struct times end = now();
    worker->took.processor += end.processor - start.processor;
    worker->took.clock += end.clock - start.clock;
    if (is_recorded) end_session(number);
    return NULL;
}

int main(int arguments, char **argument) {
    if (arguments != 6) fail("native HOW KIND THREADS ACCESSES RUNS");
    static const char *const ways[] = {"marks", "script", "atomic", "mutex"};
    for (how = MARKS; strcmp(argument[1], ways[how]); how++)
        if (how == MUTEX) fail("no such HOW");
    is_shared = !strcmp(argument[2], "shared") || !strcmp(argument[2], "wanted");
    is_update = !strcmp(argument[2], "update") || !strcmp(argument[2], "wanted");
    int threads = atoi(argument[3]), runs = atoi(argument[5]);
    count = strtoull(argument[4], NULL, 10) / (uint64_t)threads;
    struct worker workers[MAX_THREADS] = {0};
    pthread_t started[MAX_THREADS];
    if (threads < 1 || threads > MAX_THREADS || pthread_barrier_init(&all, NULL, (unsigned)threads)) fail("no such threads");
    for (int word = 0; word < MAX_THREADS; word++) pthread_mutex_init(&words[word].mutex, NULL);
    for (int run = 0; run < runs; run++) {
        if (how == MARKS || how == SCRIPT) open_heap(threads);
        for (int thread = 0; thread < threads; thread++) {
            workers[thread].number = thread;
            if (pthread_create(&started[thread], NULL, work, &workers[thread])) fail("no thread");
        }
        if (how == MARKS) take_marks(threads);
        for (int thread = 0; thread < threads; thread++) pthread_join(started[thread], NULL);
        if (how == MARKS || how == SCRIPT) close_heap(threads);
    }
    double processor = 0, clock = 0, made = (double)count * threads * runs;
    for (int thread = 0; thread < threads; thread++) {
        processor += (double)workers[thread].took.processor;
        clock += (double)workers[thread].took.clock;
    }
    printf("%.2f %.2f\n", processor / made, clock / made);
    return 0;
}
