/* Handles that lie apart, and lengths that are asked for without room. Says every answer that is not as it should be. */
#include "octet.h"
#include <inttypes.h>
#include <stdio.h>
#include <string.h>

enum { MOST = 20 };

static int wrong;
static const char TEXT[] = "fuel 9\nobject x 5\nthread\nthread\n";
static const uint64_t STARTS[] = {5};
static const uint8_t DECLARED[] = "apart";

/* What a program has of a thread. */
struct worker {
    octet_session session;
    int number;
    octet_stream stream;
};

static struct worker workers[MOST];
static octet_session *sessions[MOST];
static octet_stream *streams[MOST];

static void check(int line, const char *call, uint64_t found, uint64_t wanted) {
    if (found == wanted) return;
    printf("line %d: %s is %" PRId64 ", not %" PRId64 "\n", line, call, (int64_t)found, (int64_t)wanted);
    wrong = 1;
}

#define EXPECT(call, wanted) check(__LINE__, #call, (uint64_t)(int64_t)(call), (uint64_t)(int64_t)(wanted))

static int32_t open_text(const char *text, size_t count) {
    return octet_open_each((const uint8_t *)text, strlen(text), sessions, count);
}

static int32_t follow_long(size_t count) {
    return octet_follow_long_each(STARTS, 1, DECLARED, sizeof DECLARED, 0, sessions, count, streams, count);
}

/* Thread 0 adds 1, then thread 1 adds 2. */
static void add(void) {
    uint64_t out = 0;
    for (uint64_t number = 0; number < 2; number++) {
        EXPECT(octet_start(sessions[number]), OCTET_READY);
        int32_t status = octet_update(sessions[number], OCTET_ADD, 0, number + 1, 0, &out);
        while (status == OCTET_PENDING) status = octet_poll(sessions[number], &out);
        EXPECT(status, OCTET_READY);
        EXPECT(out, 5 + number);
        do status = octet_end(sessions[number], &out);
        while (status == OCTET_PENDING);
        EXPECT(status, OCTET_READY);
    }
}

static int are_empty(void) {
    for (int i = 0; i < MOST; i++)
        if (workers[i].session.at || workers[i].stream.at) return 0;
    return 1;
}

/* A run as a script, and again by what it kept. The lengths are those of what is copied. */
static void by_a_script(void) {
    static uint8_t script[4096], journal[4096];
    octet_record record = {0};
    size_t length = 0, script_length = 0, log_length = 0;
    uint64_t value = 7;
    EXPECT(open_text(TEXT, 2), OCTET_READY);
    add();
    EXPECT(octet_close_each(sessions, 2, &record), OCTET_READY);
    EXPECT(are_empty(), 1);
    EXPECT(octet_script(&record, NULL, 0, &length), OCTET_READY);
    EXPECT(octet_script(&record, script, sizeof script, &script_length), OCTET_READY);
    EXPECT(length > 0 && length == script_length, 1);
    EXPECT(octet_log(&record, NULL, sizeof journal, &length), OCTET_READY);
    EXPECT(octet_log(&record, journal, sizeof journal, &log_length), OCTET_READY);
    EXPECT(length > 0 && length == log_length, 1);
    EXPECT(octet_values(&record, NULL, 0, &length), OCTET_READY);
    EXPECT(length, 1);
    EXPECT(octet_values(&record, &value, 1, &length), OCTET_READY);
    EXPECT(value, 8);
    EXPECT(octet_follow_each(script, script_length, journal, log_length, sessions, 2), OCTET_READY);
    add();
    EXPECT(octet_close_each(sessions, 2, &record), OCTET_READY);
    octet_free(&record);
    EXPECT(octet_script(&record, NULL, 0, &length), OCTET_NO_RECORD);
}

/* A long run, and again by its marks. */
static void by_marks(void) {
    static uint8_t file[4096];
    octet_record record = {0};
    size_t length = 0, had = 0;
    uint64_t taken = 0;
    EXPECT(octet_head(STARTS, 1, 2, DECLARED, sizeof DECLARED, NULL, 0, &length), OCTET_READY);
    EXPECT(octet_head(STARTS, 1, 2, DECLARED, sizeof DECLARED, file, sizeof file, &had), OCTET_READY);
    EXPECT(length > 0 && length == had, 1);
    EXPECT(octet_open_long_each(STARTS, 1, sessions, 2, streams, 2), OCTET_READY);
    EXPECT(octet_take(streams[0], NULL, 0, &length), OCTET_PENDING);
    add();
    for (int i = 0; i < 2; i++) {
        while (octet_take(streams[i], NULL, 0, &length) == OCTET_NO_ROOM) {
            EXPECT(octet_take(streams[i], file + had, length, &length), OCTET_READY);
            had += length;
        }
        EXPECT(octet_take(streams[i], NULL, 0, &length), OCTET_OVER);
    }
    EXPECT(octet_close_each(sessions, 2, &record), OCTET_READY);
    for (int i = 0; i < 2; i++) octet_free(streams[i]);
    EXPECT(are_empty(), 1);
    EXPECT(follow_long(2), OCTET_READY);
    for (int i = 0; i < 2; i++) {
        EXPECT(octet_feed(streams[i], file, had, &taken), OCTET_READY);
        EXPECT(taken, had);
        EXPECT(octet_feed_end(streams[i], &taken), OCTET_READY);
    }
    add();
    EXPECT(octet_close_each(sessions, 2, &record), OCTET_READY);
    for (int i = 0; i < 2; i++) octet_free(streams[i]);
    octet_free(&record);
}

/* What is refused stays as it is; but sessions that are closed are gone, and what follows them, too. */
static void what_is_refused(void) {
    octet_record record = {0};
    EXPECT(open_text(TEXT, 1), OCTET_OTHER_SESSIONS);
    EXPECT(open_text(TEXT, MOST), OCTET_OTHER_SESSIONS);
    EXPECT(open_text("objekt", MOST), OCTET_BAD_TEXT);
    EXPECT(octet_open_long_each(STARTS, 1, sessions, MOST, streams, MOST), OCTET_BAD_SIZE);
    EXPECT(octet_open_long_each(STARTS, 1, sessions, 2, streams, MOST), OCTET_OTHER_SESSIONS);
    EXPECT(follow_long(MOST), OCTET_BAD_SIZE);
    EXPECT(are_empty(), 1);
    EXPECT(open_text(TEXT, 2), OCTET_READY);
    EXPECT(octet_start(sessions[1]), OCTET_READY);
    EXPECT(open_text("objekt", 2), OCTET_BAD_TEXT);
    EXPECT(follow_long(0), OCTET_BAD_SIZE);
    EXPECT(octet_start(sessions[1]), OCTET_RUNNING);
    EXPECT(octet_close_each(sessions, 2, &record), OCTET_STILL_RUNNING);
    EXPECT(are_empty(), 1);
    for (int first = 0; first < MOST; first += 2)
        EXPECT(octet_open_each((const uint8_t *)TEXT, strlen(TEXT), sessions + first, 2), OCTET_READY);
    EXPECT(octet_close_each(sessions, MOST, &record), OCTET_OTHER_SESSIONS);
    EXPECT(are_empty(), 1);
    EXPECT(octet_close_each(sessions, 0, &record), OCTET_OTHER_SESSIONS);
}

int main(void) {
    for (int i = 0; i < MOST; i++) {
        workers[i].number = i;
        sessions[i] = &workers[i].session, streams[i] = &workers[i].stream;
    }
    by_a_script();
    by_marks();
    what_is_refused();
    if (!wrong) printf("apart: all as expected\n");
    return wrong;
}
