/* Two threads pay into one account, each by a read and a write.
 *
 *   bank record STEM           records runs until a payment is lost, and writes STEM.octet and STEM.log
 *   bank hunt STEM             the same with one payment of each and no thread: a schedule picks who goes on
 *   bank rerun STEM AMOUNT     runs again by them; the second thread pays AMOUNT each time: 50, as it was
 *                              recorded, or another one, which leaves the recording */
#define _POSIX_C_SOURCE 200809L
#include "octet.h"
#include <inttypes.h>
#include <pthread.h>
#include <sched.h>
#include <stdio.h>
#include <stdlib.h>
#include <string.h>

enum { THREADS = 2, ROUNDS = 100, START = 100, FIRST = 30, SECOND = 50, ACCOUNT = 0, MOST_RUNS = 10000 };

struct payer {
    octet_session *session;
    pthread_barrier_t *both;
    uint64_t amount;
    int32_t status;
    uint64_t made; /* accesses, where the thread has left its recording */
};

static void fail(const char *what) {
    fprintf(stderr, "bank: %s\n", what);
    exit(1);
}

static int32_t access_account(octet_session *session, enum octet_mode mode, uint64_t value, uint64_t *out) {
    int32_t status = octet_access(session, (uint8_t)mode, ACCOUNT, value, out);
    while (status == OCTET_PENDING) {
        sched_yield();
        status = octet_poll(session, out);
    }
    return status;
}

static int32_t pay(struct payer *payer) {
    for (int round = 0; round < ROUNDS; round++) {
        int32_t status = octet_region(payer->session);
        uint64_t balance = 0;
        if (status == OCTET_READY) status = access_account(payer->session, OCTET_READ, 0, &balance);
        payer->made = balance;
        if (status != OCTET_READY) return status;
        status = access_account(payer->session, OCTET_WRITE, balance + payer->amount, &payer->made);
        if (status != OCTET_READY) return status;
    }
    return OCTET_READY;
}

static void *work(void *argument) {
    struct payer *payer = (struct payer *)argument;
    /* So that they run beside each other. */
    pthread_barrier_wait(payer->both);
    payer->status = octet_start(payer->session);
    if (payer->status != OCTET_READY) return NULL;
    payer->status = pay(payer);
    uint64_t made = 0;
    int32_t ended = octet_end(payer->session, &made);
    while (ended == OCTET_PENDING) {
        sched_yield();
        ended = octet_end(payer->session, &made);
    }
    if (ended != OCTET_READY) octet_stop(payer->session);
    if (payer->status == OCTET_READY) payer->status = ended, payer->made = made;
    return NULL;
}

/* Runs both threads to their ends, and closes. */
static int32_t run(octet_session *sessions, uint64_t second, octet_record *record) {
    pthread_barrier_t both;
    if (pthread_barrier_init(&both, NULL, THREADS)) fail("no barrier");
    struct payer payers[THREADS] = {{&sessions[0], &both, FIRST, 0, 0}, {&sessions[1], &both, second, 0, 0}};
    pthread_t threads[THREADS];
    for (int t = 0; t < THREADS; t++)
        if (pthread_create(&threads[t], NULL, work, &payers[t])) fail("no thread");
    for (int t = 0; t < THREADS; t++) pthread_join(threads[t], NULL);
    pthread_barrier_destroy(&both);
    for (int t = 0; t < THREADS; t++)
        if (payers[t].status == OCTET_DIVERGED)
            printf("thread %d leaves its recording after %" PRIu64 " accesses\n", t, payers[t].made);
    return octet_close(sessions, THREADS, record);
}

static uint64_t balance_of(octet_record *record) {
    uint64_t balance = 0;
    size_t objects = 0;
    if (octet_values(record, &balance, 1, &objects) != OCTET_READY || objects != 1) fail("no balance");
    return balance;
}

typedef int32_t (*part)(octet_record *, uint8_t *, size_t, size_t *);

static FILE *opened(const char *stem, const char *ending, const char *how) {
    char name[4096];
    snprintf(name, sizeof name, "%s%s", stem, ending);
    FILE *file = fopen(name, how);
    if (!file) fail("a file could not be opened");
    return file;
}

static void save(octet_record *record, part bytes_of, const char *stem, const char *ending) {
    size_t length = 0;
    if (bytes_of(record, NULL, 0, &length) != OCTET_READY) fail("no record");
    uint8_t *bytes = (uint8_t *)malloc(length);
    if (!bytes || bytes_of(record, bytes, length, &length) != OCTET_READY) fail("no memory");
    FILE *file = opened(stem, ending, "wb");
    if (fwrite(bytes, 1, length, file) != length || fclose(file)) fail("a file could not be written");
    free(bytes);
}

static uint8_t *load(const char *stem, const char *ending, size_t *length) {
    FILE *file = opened(stem, ending, "rb");
    if (fseek(file, 0, SEEK_END)) fail("a file could not be read");
    *length = (size_t)ftell(file);
    rewind(file);
    uint8_t *bytes = (uint8_t *)malloc(*length + 1);
    if (!bytes || fread(bytes, 1, *length, file) != *length) fail("a file could not be read");
    fclose(file);
    return bytes;
}

static const char text[] = "fuel 131072\nobject balance 100\nthread\nthread\n";

static int record_runs(const char *stem) {
    const uint64_t whole = START + ROUNDS * (FIRST + SECOND);
    for (int runs = 1; runs <= MOST_RUNS; runs++) {
        octet_session sessions[THREADS] = {{0}, {0}};
        octet_record record = {0};
        if (octet_open((const uint8_t *)text, strlen(text), sessions, THREADS) != OCTET_READY) fail("no heap");
        if (run(sessions, SECOND, &record) != OCTET_READY) fail("no record");
        uint64_t balance = balance_of(&record);
        if (balance != whole) {
            printf("run %d: balance %" PRIu64 " of %" PRIu64 "\n", runs, balance, whole);
            save(&record, octet_script, stem, ".octet");
            save(&record, octet_log, stem, ".log");
        }
        octet_free(&record);
        if (balance != whole) return 0;
    }
    fail("no payment was lost");
    return 1;
}

/* The read of a payment, or the write after it. The other one is stopped, so no access waits. */
static void go_on(octet_session *session, int writes, uint64_t amount, uint64_t *balance) {
    int32_t status = octet_start(session);
    if (status == OCTET_READY && !writes) status = octet_region(session);
    if (status == OCTET_READY)
        status = octet_access(session, writes ? OCTET_WRITE : OCTET_READ, ACCOUNT, *balance + amount, balance);
    if (status != OCTET_READY || octet_stop(session) != OCTET_READY) fail("an access is not made");
}

static void run_by(octet_turns *turns, octet_session *sessions) {
    const uint64_t amounts[THREADS] = {FIRST, SECOND};
    uint64_t balances[THREADS] = {0, 0};
    uint8_t ready[THREADS] = {1, 1}, has_read[THREADS] = {0, 0}, t = 0;
    while (octet_pick(turns, ready, THREADS, &t) == OCTET_READY) {
        go_on(&sessions[t], has_read[t], amounts[t], &balances[t]);
        ready[t] = !has_read[t];
        has_read[t] = 1;
    }
}

static int hunt(const char *stem) {
    const uint64_t whole = START + FIRST + SECOND;
    octet_turns turns = {0};
    uint64_t seed = 0, balance = whole;
    for (; balance == whole && seed < MOST_RUNS; seed++) {
        octet_session sessions[THREADS] = {{0}, {0}};
        octet_record record = {0};
        if (octet_open((const uint8_t *)text, strlen(text), sessions, THREADS) != OCTET_READY) fail("no heap");
        if (octet_schedule(&turns, OCTET_UNIFORM, seed, 0) != OCTET_READY) fail("no schedule");
        run_by(&turns, sessions);
        if (octet_close(sessions, THREADS, &record) != OCTET_READY) fail("no record");
        balance = balance_of(&record);
        save(&record, octet_script, stem, ".octet");
        save(&record, octet_log, stem, ".log");
        octet_free(&record);
    }
    octet_free(&turns);
    if (balance == whole) fail("no payment was lost");
    printf("seed %" PRIu64 ": balance %" PRIu64 " of %" PRIu64 "\n", seed - 1, balance, whole);
    return 0;
}

static int rerun(const char *stem, uint64_t second) {
    size_t script_length = 0, log_length = 0;
    uint8_t *script = load(stem, ".octet", &script_length), *log = load(stem, ".log", &log_length);
    octet_session sessions[THREADS] = {{0}, {0}};
    octet_record record = {0};
    if (octet_follow(script, script_length, log, log_length, sessions, THREADS) != OCTET_READY) fail("no recording");
    free(script);
    free(log);
    int32_t status = run(sessions, second, &record);
    if (status != OCTET_READY) {
        printf("no record: status %" PRId32 "\n", status);
        return 2;
    }
    printf("again: balance %" PRIu64 "\n", balance_of(&record));
    octet_free(&record);
    return 0;
}

int main(int count, char **words) {
    if (count == 3 && !strcmp(words[1], "record")) return record_runs(words[2]);
    if (count == 3 && !strcmp(words[1], "hunt")) return hunt(words[2]);
    if (count == 4 && !strcmp(words[1], "rerun")) return rerun(words[2], strtoull(words[3], NULL, 10));
    fprintf(stderr, "bank record STEM, bank hunt STEM, or bank rerun STEM AMOUNT\n");
    return 64;
}
