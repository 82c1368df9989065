/* A run of two threads, of 100,000 accesses each, is recorded by its marks, which the main thread takes meanwhile. The
 * run is made again by them, with equal values, and its last accesses become a script and its log, which go to STEM.octet
 * and STEM.log if a stem is given. Then each call of long runs is misused. Says every answer that is not as it should be. */
#define _POSIX_C_SOURCE 200809L
#include "octet.h"
#include <inttypes.h>
#include <pthread.h>
#include <sched.h>
#include <stdio.h>
#include <stdlib.h>
#include <string.h>

enum { THREADS = 2, OBJECTS = 4, ACCESSES = 100000, LAST = 200 };

struct bytes {
    uint8_t *at;
    size_t length, room;
};

static int wrong;
static const uint8_t DECLARED[] = "fuel 1\nobject a 5\nobject b 6\nobject c 7\nobject d 8\nthread\nthread\n";
enum { DECLARED_LENGTH = sizeof DECLARED - 1 };
static uint64_t STARTS[OBJECTS]; /* as declared */
static struct bytes file;

static void check(int line, const char *call, uint64_t found, uint64_t wanted) {
    if (found == wanted) return;
    printf("line %d: %s is %" PRId64 ", not %" PRId64 "\n", line, call, (int64_t)found, (int64_t)wanted);
    wrong = 1;
}

#define EXPECT(call, wanted) check(__LINE__, #call, (uint64_t)(int64_t)(call), (uint64_t)(int64_t)(wanted))

struct worker {
    octet_session session;
    uint64_t seed, told, made, accesses;
    int32_t status;
    pthread_t thread;
};

/* Each access depends on what the one before it found. After the last one the thread ends. */
static void *work(void *given) {
    struct worker *w = (struct worker *)given;
    uint64_t told = w->seed, out = 0;
    int32_t status = octet_start(&w->session);
    for (w->made = 0; status == OCTET_READY && w->made < w->accesses; w->made++) {
        uint16_t object = (uint16_t)(told >> 7 & 3);
        if (w->made % 3 == 0) status = octet_access(&w->session, OCTET_READ, object, 0, &out);
        else if (w->made % 3 == 1) status = octet_access(&w->session, OCTET_WRITE, object, told, &out);
        else status = octet_update(&w->session, OCTET_ADD, object, 3, 0, &out);
        /* The thread that has to answer may want this processor. */
        for (int polls = 0; status == OCTET_PENDING; status = octet_poll(&w->session, &out))
            if (++polls > 100) sched_yield();
        if (status != OCTET_READY) break;
        told = (told ^ out) * 6364136223846793005u + 1442695040888963407u;
    }
    w->told = told;
    while (status == OCTET_READY || status == OCTET_PENDING) {
        status = octet_end(&w->session, &out);
        if (status == OCTET_READY) break;
        sched_yield();
    }
    w->status = status;
    if (status != OCTET_READY) octet_stop(&w->session);
    return NULL;
}

static void start_all(struct worker *workers, const octet_session *sessions, uint64_t accesses) {
    for (int i = 0; i < THREADS; i++) {
        memset(&workers[i], 0, sizeof workers[i]);
        workers[i].session = sessions[i];
        workers[i].seed = (uint64_t)i + 1;
        workers[i].accesses = accesses;
        if (pthread_create(&workers[i].thread, NULL, work, &workers[i])) exit(64);
    }
}

static void join_all(struct worker *workers, octet_session *sessions) {
    for (int i = 0; i < THREADS; i++) {
        pthread_join(workers[i].thread, NULL);
        sessions[i] = workers[i].session;
    }
}

static void add(struct bytes *to, const uint8_t *from, size_t length) {
    if (to->length + length > to->room) {
        to->room = 2 * (to->length + length);
        to->at = (uint8_t *)realloc(to->at, to->room);
        if (!to->at) exit(64);
    }
    if (length) memcpy(to->at + to->length, from, length);
    to->length += length;
}

/* Takes what the streams have into the file, until the threads have ended. */
static void take_all(octet_stream *streams) {
    static uint8_t piece[65536];
    for (int over = 0; over < THREADS; sched_yield()) {
        over = 0;
        for (int i = 0; i < THREADS; i++) {
            size_t length = 0;
            int32_t status = octet_take(&streams[i], piece, sizeof piece, &length);
            if (status == OCTET_READY) add(&file, piece, length);
            else if (status == OCTET_OVER) over++;
            else if (status != OCTET_PENDING) EXPECT(status, OCTET_PENDING), exit(1);
        }
    }
}

/* Feeds each thread these bytes. */
static void feed_all(octet_stream *streams, const uint8_t *bytes, size_t whole) {
    size_t fed[THREADS] = {0};
    int32_t ends[THREADS] = {OCTET_PENDING, OCTET_PENDING};
    for (int over = 0; over < THREADS; sched_yield()) {
        over = 0;
        for (int i = 0; i < THREADS; i++) {
            uint64_t taken = 0;
            if (fed[i] < whole) {
                EXPECT(octet_feed(&streams[i], bytes + fed[i], whole - fed[i], &taken), OCTET_READY);
                fed[i] += taken;
            } else if (ends[i] == OCTET_PENDING) ends[i] = octet_feed_end(&streams[i], &taken);
            else over++;
        }
    }
    EXPECT(ends[0], OCTET_READY);
    EXPECT(ends[1], OCTET_READY);
}

static void values_of(octet_record *record, uint64_t *values) {
    size_t length = 0;
    uint8_t byte;
    EXPECT(octet_script(record, &byte, 1, &length), OCTET_OTHER_KIND);
    EXPECT(octet_log(record, &byte, 1, &length), OCTET_OTHER_KIND);
    EXPECT(octet_values(record, values, OBJECTS, &length), OCTET_READY);
    EXPECT(length, OBJECTS);
    octet_free(record);
}

static void declare(void) {
    size_t length = 7;
    EXPECT(octet_starts(DECLARED, 3, STARTS, OBJECTS, &length), OCTET_BAD_TEXT);
    EXPECT(length, 7);
    EXPECT(octet_starts(DECLARED, DECLARED_LENGTH, STARTS, 1, &length), OCTET_READY);
    EXPECT(STARTS[0] == 5 && STARTS[1] == 0 && length == OBJECTS, 1);
    EXPECT(octet_starts(DECLARED, DECLARED_LENGTH, STARTS, OBJECTS, &length), OCTET_READY);
    EXPECT(STARTS[1] == 6 && STARTS[3] == 8 && length == OBJECTS, 1);
}

static void begin_file(void) {
    static uint8_t head[256];
    size_t length = 0, again = 0;
    EXPECT(octet_head(STARTS, OBJECTS, THREADS, DECLARED, DECLARED_LENGTH, head, 0, &length), OCTET_READY);
    EXPECT(octet_head(STARTS, OBJECTS, THREADS, DECLARED, DECLARED_LENGTH, head, sizeof head, &again), OCTET_READY);
    EXPECT(again, length);
    EXPECT(memcmp(head, "OCTM", 4), 0);
    add(&file, head, length);
}

static void record(struct worker *workers, uint64_t *values) {
    octet_session sessions[THREADS] = {{0}, {0}};
    octet_stream streams[THREADS] = {{0}, {0}}, none = {0};
    octet_record record = {0};
    size_t length = 0;
    uint8_t byte;
    begin_file();
    EXPECT(octet_open_long(STARTS, OBJECTS, sessions, THREADS, streams, THREADS), OCTET_READY);
    start_all(workers, sessions, ACCESSES);
    take_all(streams);
    join_all(workers, sessions);
    EXPECT(octet_take(&streams[0], &byte, 1, &length), OCTET_OVER);
    for (int i = 0; i < THREADS; i++) {
        EXPECT(workers[i].status, OCTET_READY);
        EXPECT(octet_start(&sessions[i]), OCTET_RESTING);
    }
    EXPECT(octet_close(sessions, THREADS, &record), OCTET_READY);
    EXPECT(octet_search(&record, &none), OCTET_OTHER_KIND);
    values_of(&record, values);
    EXPECT(octet_take(&streams[1], &byte, 1, &length), OCTET_OVER);
    octet_free(&streams[0]), octet_free(&streams[1]);
}

/* Makes the run again by these bytes, and gives its record. Each thread comes to this status. */
static octet_record made_again(struct worker *workers, const uint8_t *bytes, size_t length, uint16_t last, int32_t status) {
    octet_session sessions[THREADS] = {{0}, {0}};
    octet_stream streams[THREADS] = {{0}, {0}};
    octet_record record = {0};
    EXPECT(octet_follow_long(STARTS, OBJECTS, DECLARED, DECLARED_LENGTH, last, sessions, THREADS, streams, THREADS), OCTET_READY);
    start_all(workers, sessions, ACCESSES);
    feed_all(streams, bytes, length);
    join_all(workers, sessions);
    for (int i = 0; i < THREADS; i++) EXPECT(workers[i].status, status);
    EXPECT(octet_close(sessions, THREADS, &record), OCTET_READY);
    octet_free(&streams[0]), octet_free(&streams[1]);
    return record;
}

static void again(const struct worker *before, const uint64_t *values) {
    struct worker workers[THREADS];
    uint64_t found[OBJECTS] = {0};
    octet_record record = made_again(workers, file.at, file.length, 0, OCTET_READY);
    for (int i = 0; i < THREADS; i++) EXPECT(workers[i].told, before[i].told);
    values_of(&record, found);
    EXPECT(memcmp(found, values, sizeof found), 0);
}

/* Half of the file: each thread comes to where its recording ends, and it is closed all the same. */
static void again_by_half(void) {
    struct worker workers[THREADS];
    uint64_t found[OBJECTS] = {0};
    octet_record record = made_again(workers, file.at, file.length / 2, 0, OCTET_OVER);
    EXPECT(workers[0].made < ACCESSES, 1);
    values_of(&record, found);
}

static void keep(const char *stem, const char *ending, const uint8_t *bytes, size_t length) {
    char name[4096];
    if (!stem) return;
    snprintf(name, sizeof name, "%s%s", stem, ending);
    FILE *to = fopen(name, "wb");
    if (!to || fwrite(bytes, 1, length, to) != length || fclose(to)) exit(64);
}

/* Its last accesses: it is made again whole. */
static void window(const char *stem) {
    static uint8_t text[1 << 20], bytes[1 << 20];
    struct worker workers[THREADS];
    octet_record whole = made_again(workers, file.at, file.length, LAST, OCTET_READY), made = {0};
    octet_stream search = {0}, none = {0};
    uint64_t place = 0, value = 0;
    size_t length = 7, log_length = 7, accesses = 0;
    EXPECT(octet_search(&none, &search), OCTET_NO_RECORD);
    EXPECT(octet_search(&whole, &search), OCTET_READY);
    EXPECT(octet_search(&whole, &none), OCTET_NO_NOTES);
    EXPECT(octet_window(&none, &made), OCTET_NO_STREAM);
    EXPECT(octet_window(&whole, &made), OCTET_OTHER_KIND);
    EXPECT(octet_window(&search, &made), OCTET_OTHER_KIND);
    EXPECT(octet_feed(&search, file.at, file.length, &place), OCTET_READY);
    EXPECT(place, file.length);
    EXPECT(octet_feed_end(&search, &place), OCTET_READY);
    EXPECT(octet_feed(&search, file.at, 1, &place), OCTET_OTHER_KIND);
    EXPECT(octet_feed_end(&search, &place), OCTET_OTHER_KIND);
    EXPECT(made.at == NULL && none.at == NULL, 1);
    EXPECT(octet_window(&search, &made), OCTET_READY);
    EXPECT(octet_script(&made, text, sizeof text - 1, &length), OCTET_READY);
    EXPECT(octet_log(&made, bytes, sizeof bytes, &log_length), OCTET_READY);
    EXPECT(length < sizeof text && log_length <= sizeof bytes, 1);
    keep(stem, ".octet", text, length), keep(stem, ".log", bytes, log_length);
    EXPECT(octet_values(&made, &value, 1, &length), OCTET_READY);
    EXPECT(length, 0);
    for (const char *at = (const char *)text; (at = strstr(at, " o")); at++) accesses++;
    EXPECT(accesses > OBJECTS && accesses <= OBJECTS + THREADS * LAST, 1);
    octet_free(&whole), octet_free(&made), octet_free(&search);
}

/* Feeds a thread as much of the file as it has room for. */
static void feed_some(octet_stream *stream) {
    uint64_t taken = 1;
    for (size_t fed = 0; fed < file.length && taken > 0; fed += taken)
        EXPECT(octet_feed(stream, file.at + fed, file.length - fed, &taken), OCTET_READY);
    octet_feed_end(stream, &taken);
}

/* Threads that make fewer accesses than were recorded have diverged. */
static void leave_the_recording(void) {
    octet_session sessions[THREADS] = {{0}, {0}};
    octet_stream streams[THREADS] = {{0}, {0}};
    struct worker workers[THREADS];
    EXPECT(octet_follow_long(STARTS, OBJECTS, DECLARED, DECLARED_LENGTH, 0, sessions, THREADS, streams, THREADS), OCTET_READY);
    start_all(workers, sessions, 9);
    feed_some(&streams[0]), feed_some(&streams[1]);
    join_all(workers, sessions);
    int diverged = 0;
    for (int i = 0; i < THREADS; i++) {
        EXPECT(workers[i].status == OCTET_DIVERGED || workers[i].status == OCTET_HALTED, 1);
        diverged += workers[i].status == OCTET_DIVERGED;
    }
    EXPECT(diverged > 0, 1);
    octet_free(&streams[0]), octet_free(&streams[1]);
    octet_free(&sessions[0]), octet_free(&sessions[1]);
}

static void at_open(void) {
    octet_session s[17] = {{0}};
    octet_stream t[17] = {{0}};
    size_t length = 7;
    uint8_t byte = 0;
    EXPECT(octet_open_long(STARTS, 0, s, 1, t, 1), OCTET_BAD_SIZE);
    EXPECT(octet_open_long(STARTS, OBJECTS, s, 0, t, 0), OCTET_BAD_SIZE);
    EXPECT(octet_open_long(STARTS, OBJECTS, s, 17, t, 17), OCTET_BAD_SIZE);
    EXPECT(octet_open_long(STARTS, OBJECTS, s, 2, t, 1), OCTET_OTHER_SESSIONS);
    EXPECT(octet_follow_long(STARTS, 0, DECLARED, 1, 0, s, 1, t, 1), OCTET_BAD_SIZE);
    EXPECT(octet_follow_long(STARTS, OBJECTS, DECLARED, 1, 0, s, 17, t, 17), OCTET_BAD_SIZE);
    EXPECT(octet_follow_long(STARTS, OBJECTS, DECLARED, 1, 0, s, 1, t, 2), OCTET_OTHER_SESSIONS);
    EXPECT(octet_head(STARTS, OBJECTS, 0, DECLARED, 1, &byte, 1, &length), OCTET_BAD_SIZE);
    EXPECT(octet_head(STARTS, 0, 1, DECLARED, 1, &byte, 1, &length), OCTET_BAD_SIZE);
    EXPECT(length, 7);
    EXPECT(s[0].at == NULL && t[0].at == NULL, 1);
}

static void without_a_stream(void) {
    octet_session s = {0};
    octet_stream t = {0}, none = {0};
    size_t length = 7;
    uint64_t taken = 7;
    uint8_t bytes[64];
    EXPECT(octet_take(&none, bytes, 1, &length), OCTET_NO_STREAM);
    EXPECT(octet_feed(&none, file.at, 1, &taken), OCTET_NO_STREAM);
    EXPECT(octet_feed_end(&none, &taken), OCTET_NO_STREAM);
    EXPECT(octet_open_long(STARTS, OBJECTS, &s, 1, &t, 1), OCTET_READY);
    EXPECT(octet_feed(&t, file.at, 1, &taken), OCTET_OTHER_KIND);
    EXPECT(octet_feed_end(&t, &taken), OCTET_OTHER_KIND);
    EXPECT(octet_take(&s, bytes, 1, &length), OCTET_OTHER_KIND);
    EXPECT(octet_start(&t), OCTET_OTHER_KIND);
    EXPECT(octet_take(&t, bytes, sizeof bytes, &length), OCTET_PENDING);
    EXPECT(octet_start(&s), OCTET_READY);
    EXPECT(octet_access(&s, OCTET_READ, OBJECTS, 0, &taken), OCTET_NO_OBJECT);
    EXPECT(octet_access(&s, OCTET_WRITE, 1, 9, &taken), OCTET_READY);
    EXPECT(octet_poll(&s, &taken), OCTET_NOT_BEGUN);
    EXPECT(octet_safe_point(&s), OCTET_READY);
    EXPECT(octet_region(&s), OCTET_READY);
    EXPECT(octet_end(&s, &taken), OCTET_READY);
    EXPECT(octet_take(&t, bytes, 1, &length), OCTET_NO_ROOM);
    EXPECT(length > 1 && length <= sizeof bytes, 1);
    EXPECT(octet_take(&t, bytes, sizeof bytes, &length), OCTET_READY);
    EXPECT(octet_take(&t, bytes, sizeof bytes, &length), OCTET_READY);
    length = 7;
    EXPECT(octet_take(&t, bytes, sizeof bytes, &length), OCTET_OVER);
    EXPECT(length, 7);
    octet_free(&s), octet_free(&t);
}

/* A thread that has an object answers the one that wants it: at a safe point, and before an access of another object. */
static void at_safe_point(void) {
    octet_session s[THREADS] = {{0}, {0}};
    octet_stream t[THREADS] = {{0}, {0}};
    uint64_t out = 7;
    EXPECT(octet_open_long(STARTS, OBJECTS, s, THREADS, t, THREADS), OCTET_READY);
    EXPECT(octet_safe_point(&s[0]), OCTET_RESTING);
    EXPECT(octet_start(&s[0]), OCTET_READY);
    EXPECT(octet_start(&s[1]), OCTET_READY);
    EXPECT(octet_access(&s[0], OCTET_WRITE, 0, 9, &out), OCTET_READY);
    EXPECT(octet_access(&s[1], OCTET_READ, 0, 0, &out), OCTET_PENDING);
    EXPECT(octet_safe_point(&s[1]), OCTET_BEGUN);
    EXPECT(octet_safe_point(&s[0]), OCTET_ANSWERED);
    EXPECT(octet_safe_point(&s[0]), OCTET_READY);
    EXPECT(octet_poll(&s[1], &out), OCTET_READY);
    EXPECT(out, 9);
    EXPECT(octet_update(&s[1], OCTET_ADD, 2, 1, 0, &out), OCTET_PENDING);
    EXPECT(octet_access(&s[0], OCTET_READ, 1, 0, &out), OCTET_READY);
    EXPECT(out, 6);
    EXPECT(octet_poll(&s[1], &out), OCTET_READY);
    EXPECT(out, 7);
    octet_free(&s[0]), octet_free(&s[1]), octet_free(&t[0]), octet_free(&t[1]);
}

static void at_feed(void) {
    octet_session s[THREADS] = {{0}, {0}};
    octet_stream t[THREADS] = {{0}, {0}};
    uint64_t out = 7;
    size_t length = 0;
    uint8_t byte;
    EXPECT(octet_follow_long(STARTS, OBJECTS, DECLARED, 3, 0, s, THREADS, t, THREADS), OCTET_READY);
    EXPECT(octet_take(&t[0], &byte, 1, &length), OCTET_OTHER_KIND);
    EXPECT(octet_feed(&t[0], file.at, 200, &out), OCTET_READY);
    EXPECT(out, 200);
    EXPECT(octet_feed(&t[0], file.at + 200, 1, &out), OCTET_OTHER_RUN);
    EXPECT(octet_feed(&t[1], DECLARED, 12, &out), OCTET_READY);
    EXPECT(octet_feed(&t[1], DECLARED, 12, &out), OCTET_BAD_MARKS);
    EXPECT(out, 0);
    EXPECT(octet_feed_end(&t[1], &out), OCTET_BAD_MARKS);
    EXPECT(octet_feed_end(&t[1], &out), OCTET_READY);
    EXPECT(octet_feed(&t[1], DECLARED, 1, &out), OCTET_OVER);
    EXPECT(octet_start(&s[1]), OCTET_READY);
    int32_t status = octet_access(&s[1], OCTET_READ, 0, 0, &out);
    while (status == OCTET_PENDING) sched_yield(), status = octet_poll(&s[1], &out);
    EXPECT(status, OCTET_OVER);
    EXPECT(octet_stop(&s[1]), OCTET_READY);
    octet_free(&t[0]), octet_free(&t[1]), octet_free(&s[0]), octet_free(&s[1]);
}

/* A script's sessions with a long run's, two long runs' sessions, too few of one, and a thread that runs. */
static void at_close(void) {
    static const char text[] = "fuel 9\nobject x 5\nthread\n";
    octet_session s[2] = {{0}, {0}}, second;
    octet_stream t[2] = {{0}, {0}};
    octet_record r = {0};
    EXPECT(octet_open((const uint8_t *)text, strlen(text), s, 1), OCTET_READY);
    EXPECT(octet_open_long(STARTS, OBJECTS, s + 1, 1, t, 1), OCTET_READY);
    EXPECT(octet_close(s, 2, &r), OCTET_OTHER_SESSIONS);
    EXPECT(octet_open_long(STARTS, OBJECTS, s, 1, t, 1), OCTET_READY);
    EXPECT(octet_open_long(STARTS, OBJECTS, s + 1, 1, t + 1, 1), OCTET_READY);
    EXPECT(octet_close(s, 2, &r), OCTET_OTHER_SESSIONS);
    EXPECT(octet_open_long(STARTS, OBJECTS, s, 2, t, 2), OCTET_READY);
    EXPECT(octet_close(s, 1, &r), OCTET_OTHER_SESSIONS);
    second = s[1], s[1].at = NULL;
    EXPECT(octet_open_long(STARTS, OBJECTS, s, 2, t, 2), OCTET_READY);
    octet_free(&s[1]);
    s[1] = second;
    EXPECT(octet_close(s, 2, &r), OCTET_TWO_RUNS);
    EXPECT(octet_open_long(STARTS, OBJECTS, s, 1, t, 1), OCTET_READY);
    EXPECT(octet_start(s), OCTET_READY);
    EXPECT(octet_close(s, 1, &r), OCTET_STILL_RUNNING);
    EXPECT(octet_open_long(STARTS, OBJECTS, s, 1, t, 1), OCTET_READY);
    EXPECT(octet_follow_long(STARTS, OBJECTS, DECLARED, 1, 0, s + 1, 1, t + 1, 1), OCTET_READY);
    EXPECT(octet_close(s, 2, &r), OCTET_OTHER_SESSIONS);
    EXPECT(octet_close(t, 1, &r), OCTET_OTHER_SESSIONS);
    EXPECT(r.at == NULL && t[0].at == NULL, 1);
    octet_free(&t[1]);
}

int main(int count, char **words) {
    static struct worker workers[THREADS];
    uint64_t values[OBJECTS] = {0};
    declare();
    record(workers, values);
    again(workers, values);
    again_by_half();
    window(count > 1 ? words[1] : NULL);
    leave_the_recording();
    at_open();
    without_a_stream();
    at_safe_point();
    at_feed();
    at_close();
    free(file.at);
    if (!wrong) printf("long: all as expected\n");
    return wrong;
}
