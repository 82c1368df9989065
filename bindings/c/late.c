/* A notice that comes late. One thread adds and notifies, twice; the other one takes, twice, and asks only once before it waits. A
 * notice of what is gone then wakes it. Schedules are tried until one shows it, its run is made again, and threads that ask again
 * after each wait pass all schedules, and freely. The run goes to STEM.octet and STEM.log if a stem is given. */
#define _POSIX_C_SOURCE 200809L
#include "threads.h"
#include <inttypes.h>
#include <stdio.h>
#include <stdlib.h>

enum { COUNT, MUTEX, SOME, MOST_SEEDS = 2000, RIGHT_SEEDS = 100, FREE_RUNS = 20, BURST = 8 };

static const char TEXT[] = "fuel 3000\nobject n 0\nobject m 0\nobject some 0\nthread\nthread\n";

/* What the threads do, and whether the second one found nothing. */
struct task {
    int asks_again, found_none;
};

#define TRY(call) if ((t->status = (call)) != OCTET_READY) return

static void add(struct thread *t) {
    uint64_t out = 0;
    for (int round = 0; round < 2; round++) {
        TRY(thread_lock(t, MUTEX));
        TRY(thread_update(t, OCTET_ADD, COUNT, 1, 0, &out));
        TRY(thread_unlock(t, MUTEX));
        TRY(thread_notify_one(t, SOME));
    }
}

static void take(struct thread *t) {
    struct task *task = (struct task *)t->given;
    uint64_t found = 0;
    for (int round = 0; round < 2; round++) {
        TRY(thread_lock(t, MUTEX));
        TRY(thread_read(t, COUNT, &found));
        while (found == 0) {
            TRY(thread_wait(t, SOME, MUTEX));
            if (!task->asks_again) break;
            TRY(thread_read(t, COUNT, &found));
        }
        TRY(thread_update(t, OCTET_SUB, COUNT, 1, 0, &found));
        if (found == 0) task->found_none = 1;
        TRY(thread_unlock(t, MUTEX));
    }
}

static void work(struct thread *t) {
    if (t->number == 0) add(t);
    else take(t);
}

static void fail(const char *what, int32_t status) {
    printf("late: %s, status %" PRId32 "\n", what, status);
    exit(1);
}

/* Even seeds pick any thread, and odd ones let a thread go on for a while. */
static int32_t open_by(struct threads *all, uint64_t seed) {
    return threads_open_by(all, TEXT, 2, seed % 2 ? OCTET_BURSTS : OCTET_UNIFORM, seed, seed % 2 ? BURST : 0);
}

/* Whether the second thread found nothing. */
static int run(struct threads *all, int32_t opened, int asks_again, octet_record *record) {
    struct task task = {asks_again, 0};
    if (opened != OCTET_READY) fail("no heap", opened);
    int32_t status = threads_run(all, work, &task, record);
    if (status != OCTET_READY) fail("no record", status);
    for (int i = 0; i < all->count; i++)
        if (all->each[i].status != OCTET_READY) fail("a thread fails", all->each[i].status);
    return task.found_none;
}

static uint8_t *bytes_of(octet_record *record, int32_t (*part)(octet_record *, uint8_t *, size_t, size_t *), size_t *length) {
    int32_t status = part(record, NULL, 0, length);
    uint8_t *bytes = (uint8_t *)malloc(*length);
    if (status != OCTET_READY || !bytes) fail("no bytes", status);
    part(record, bytes, *length, length);
    return bytes;
}

static void keep(const char *stem, const char *ending, const uint8_t *bytes, size_t length) {
    char name[4096];
    snprintf(name, sizeof name, "%s%s", stem, ending);
    FILE *to = fopen(name, "wb");
    if (!to || fwrite(bytes, 1, length, to) != length || fclose(to)) fail("no file", 0);
}

int main(int count, char **words) {
    static struct threads all;
    octet_record record = {0}, again = {0};
    uint64_t seed = 0;
    while (seed < MOST_SEEDS && !run(&all, open_by(&all, seed), 0, &record)) seed++;
    if (seed == MOST_SEEDS) fail("no schedule shows it", 0);
    size_t length = 0, log_length = 0;
    uint8_t *script = bytes_of(&record, octet_script, &length), *log = bytes_of(&record, octet_log, &log_length);
    if (count > 1) keep(words[1], ".octet", script, length), keep(words[1], ".log", log, log_length);
    if (!run(&all, threads_follow(&all, script, length, log, log_length, 2), 0, &again)) fail("not again", 0);
    free(script), free(log);
    for (uint64_t other = 0; other < RIGHT_SEEDS; other++)
        if (run(&all, open_by(&all, other), 1, &again)) fail("the right one fails", 0);
    for (int free_run = 0; free_run < FREE_RUNS; free_run++)
        if (run(&all, threads_open(&all, TEXT, 2), 1, &again)) fail("the right one fails freely", 0);
    octet_free(&record), octet_free(&again);
    printf("late: seed %" PRIu64 " shows it, and its run does again; the right threads pass\n", seed);
    return 0;
}
