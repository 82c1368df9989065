/* What each call answers where it is misused. Says every answer that is not as it should be. */
#include "octet.h"
#include <inttypes.h>
#include <stdio.h>
#include <string.h>

static int wrong;
static const char TEXT[] = "fuel 5\nobject x 5\nthread\nthread\n";
static uint8_t script[4096], journal[4096]; /* of the record */
static size_t script_length, journal_length;

static void check(int line, const char *call, uint64_t found, uint64_t wanted) {
    if (found == wanted) return;
    printf("line %d: %s is %" PRId64 ", not %" PRId64 "\n", line, call, (int64_t)found, (int64_t)wanted);
    wrong = 1;
}

#define EXPECT(call, wanted) check(__LINE__, #call, (uint64_t)(int64_t)(call), (uint64_t)(int64_t)(wanted))

static int32_t open_text(const char *text, octet_session *sessions, size_t count) {
    return octet_open((const uint8_t *)text, strlen(text), sessions, count);
}

static int32_t follow(octet_session *sessions, size_t count) {
    return octet_follow(script, script_length, journal, journal_length, sessions, count);
}

static void without_a_session(void) {
    octet_session s[2] = {{0}, {0}};
    octet_record r = {0};
    uint64_t out = 7;
    size_t length = 7;
    EXPECT(octet_start(s), OCTET_NO_SESSION);
    EXPECT(octet_stop(s), OCTET_NO_SESSION);
    EXPECT(octet_end(s, &out), OCTET_NO_SESSION);
    EXPECT(octet_region(s), OCTET_NO_SESSION);
    EXPECT(octet_safe_point(s), OCTET_NO_SESSION);
    EXPECT(octet_access(s, OCTET_READ, 0, 0, &out), OCTET_NO_SESSION);
    EXPECT(octet_update(s, OCTET_ADD, 0, 0, 0, &out), OCTET_NO_SESSION);
    EXPECT(octet_poll(s, &out), OCTET_NO_SESSION);
    EXPECT(octet_script(&r, script, sizeof script, &length), OCTET_NO_RECORD);
    EXPECT(octet_log(&r, journal, sizeof journal, &length), OCTET_NO_RECORD);
    EXPECT(octet_values(&r, &out, 1, &length), OCTET_NO_RECORD);
    EXPECT(octet_close(s, 2, &r), OCTET_OTHER_SESSIONS);
    EXPECT(octet_close(s, 0, &r), OCTET_OTHER_SESSIONS);
    octet_free(s);
    EXPECT(out, 7);
    EXPECT(length, 7);
}

/* Each status has a text, and no other number has. -31 is the number of none. */
static void texts_of_statuses(void) {
    const char *none = octet_status_text(OCTET_OTHER_KIND - 1);
    for (int32_t status = OCTET_OTHER_KIND; status <= OCTET_OVER; status++)
        EXPECT(strcmp(octet_status_text(status), none) != 0, status != -31);
    EXPECT(strcmp(octet_status_text(OCTET_OVER + 1), none), 0);
}

static void at_open(void) {
    octet_session s[3] = {{0}, {0}, {0}};
    EXPECT(open_text("objekt", s, 2), OCTET_BAD_TEXT);
    EXPECT(open_text("", s, 2), OCTET_BAD_TEXT);
    EXPECT(open_text("fuel 1\nthread\nread r0 x\n", s, 1), OCTET_BAD_TEXT);
    EXPECT(open_text(TEXT, s, 0), OCTET_OTHER_SESSIONS);
    EXPECT(open_text(TEXT, s, 1), OCTET_OTHER_SESSIONS);
    EXPECT(open_text(TEXT, s, 3), OCTET_OTHER_SESSIONS);
    EXPECT(s[0].at == NULL, 1);
    EXPECT(open_text(TEXT, s, 2), OCTET_READY);
    EXPECT(octet_start(s), OCTET_READY);
    EXPECT(open_text("objekt", s, 2), OCTET_BAD_TEXT);
    EXPECT(octet_start(s), OCTET_RUNNING);
    EXPECT(open_text(TEXT, s, 2), OCTET_READY);
    EXPECT(octet_start(s), OCTET_READY);
    octet_free(&s[0]), octet_free(&s[1]);
}

static void out_of_turn(void) {
    octet_session s[2] = {{0}, {0}};
    octet_record r = {0};
    uint64_t out = 7;
    EXPECT(open_text(TEXT, s, 2), OCTET_READY);
    EXPECT(octet_access(s, OCTET_READ, 0, 0, &out), OCTET_RESTING);
    EXPECT(octet_update(s, OCTET_ADD, 0, 0, 0, &out), OCTET_RESTING);
    EXPECT(octet_region(s), OCTET_RESTING);
    EXPECT(octet_safe_point(s), OCTET_RESTING);
    EXPECT(octet_stop(s), OCTET_RESTING);
    EXPECT(octet_end(s, &out), OCTET_RESTING);
    EXPECT(octet_poll(s, &out), OCTET_NOT_BEGUN);
    EXPECT(octet_start(s), OCTET_READY);
    EXPECT(octet_start(s), OCTET_RUNNING);
    EXPECT(octet_poll(s, &out), OCTET_NOT_BEGUN);
    EXPECT(octet_access(s, OCTET_READ, 1, 0, &out), OCTET_NO_OBJECT);
    EXPECT(octet_update(s, OCTET_MIN, 65535, 0, 0, &out), OCTET_NO_OBJECT);
    EXPECT(octet_access(s, 2, 0, 0, &out), OCTET_NO_MODE);
    EXPECT(octet_update(s, 9, 0, 0, 0, &out), OCTET_NO_CHANGE);
    EXPECT(out, 7);
    EXPECT(octet_close(s, 2, &r), OCTET_STILL_RUNNING);
    EXPECT(s[0].at == NULL && s[1].at == NULL, 1);
}

/* Thread 0 owns the object, so thread 1 waits until it answers. */
static void while_an_access_waits(void) {
    octet_session s[2] = {{0}, {0}};
    octet_record r = {0};
    uint64_t out = 7;
    size_t length = 7;
    EXPECT(open_text(TEXT, s, 2), OCTET_READY);
    EXPECT(octet_start(&s[0]), OCTET_READY);
    EXPECT(octet_region(&s[0]), OCTET_READY);
    EXPECT(octet_access(&s[0], OCTET_WRITE, 0, 9, &out), OCTET_READY);
    EXPECT(out, 9);
    EXPECT(octet_access(&s[0], OCTET_READ, 0, 0, &out), OCTET_SPENT);
    EXPECT(octet_safe_point(&s[0]), 0);
    EXPECT(octet_start(&s[1]), OCTET_READY);
    EXPECT(octet_update(&s[1], OCTET_ADD, 0, 1, 0, &out), OCTET_PENDING);
    EXPECT(octet_update(&s[1], OCTET_ADD, 0, 1, 0, &out), OCTET_BEGUN);
    EXPECT(octet_access(&s[1], OCTET_READ, 0, 0, &out), OCTET_BEGUN);
    EXPECT(octet_stop(&s[1]), OCTET_BEGUN);
    EXPECT(octet_end(&s[1], &out), OCTET_BEGUN);
    EXPECT(octet_region(&s[1]), OCTET_BEGUN);
    EXPECT(octet_safe_point(&s[1]), OCTET_BEGUN);
    EXPECT(octet_start(&s[1]), OCTET_RUNNING);
    EXPECT(octet_log(&s[1], journal, sizeof journal, &length), OCTET_OTHER_KIND);
    EXPECT(octet_values(&s[1], &out, 1, &length), OCTET_OTHER_KIND);
    EXPECT(octet_poll(&s[1], &out), OCTET_PENDING);
    EXPECT(out, 9);
    EXPECT(octet_safe_point(&s[0]), 1);
    EXPECT(octet_poll(&s[1], &out), OCTET_READY);
    EXPECT(out, 9);
    EXPECT(octet_stop(&s[0]), OCTET_READY);
    EXPECT(octet_update(&s[1], OCTET_ADD, 0, 1, 0, &out), OCTET_READY);
    EXPECT(out, 10);
    EXPECT(octet_end(&s[1], &out), OCTET_READY);
    EXPECT(octet_close(s, 2, &r), OCTET_READY);
    EXPECT(octet_values(&r, &out, 1, &length), OCTET_READY);
    EXPECT(out, 11);
    EXPECT(length, 1);
    octet_free(&r);
}

/* Moves two sessions into a close that refuses them so, and those that are left are freed before it or after it. */
static void close_others(octet_session *a, octet_session *b, octet_session *c, octet_session *d, int before, int32_t status) {
    octet_session given[2], left[2];
    octet_record r = {0};
    given[0] = *a, given[1] = *b, left[0] = *c, left[1] = *d;
    a->at = b->at = c->at = d->at = NULL;
    if (before) octet_free(&left[0]), octet_free(&left[1]);
    EXPECT(octet_close(given, 2, &r), status);
    EXPECT(given[0].at == NULL && given[1].at == NULL && r.at == NULL, 1);
    octet_free(&left[0]), octet_free(&left[1]);
}

static void at_close(void) {
    octet_session s[2] = {{0}, {0}}, t[2] = {{0}, {0}}, none = {0};
    for (int before = 0; before < 2; before++) {
        EXPECT(open_text(TEXT, s, 2), OCTET_READY);
        close_others(&s[1], &s[0], &none, &none, before, OCTET_OUT_OF_ORDER);
        EXPECT(open_text(TEXT, s, 2), OCTET_READY);
        EXPECT(open_text(TEXT, t, 2), OCTET_READY);
        close_others(&s[0], &t[1], &s[1], &t[0], before, OCTET_TWO_RUNS);
        EXPECT(open_text(TEXT, s, 2), OCTET_READY);
        close_others(&s[0], &none, &s[1], &none, before, OCTET_OTHER_SESSIONS);
    }
}

/* Thread 0 writes 9, then thread 1 adds 1. */
static void keep_a_record(void) {
    octet_session s[2] = {{0}, {0}};
    octet_record r = {0};
    uint64_t out = 0;
    uint8_t thread = 7;
    EXPECT(open_text(TEXT, s, 2), OCTET_READY);
    EXPECT(octet_start(&s[0]), OCTET_READY);
    EXPECT(octet_access(&s[0], OCTET_WRITE, 0, 9, &out), OCTET_READY);
    EXPECT(octet_stop(&s[0]), OCTET_READY);
    EXPECT(octet_start(&s[1]), OCTET_READY);
    EXPECT(octet_update(&s[1], OCTET_ADD, 0, 1, 0, &out), OCTET_READY);
    EXPECT(out, 9);
    EXPECT(octet_end(&s[1], &out), OCTET_READY);
    EXPECT(octet_close(s, 2, &r), OCTET_READY);
    EXPECT(octet_start(&r), OCTET_OTHER_KIND);
    EXPECT(octet_access(&r, OCTET_READ, 0, 0, &out), OCTET_OTHER_KIND);
    EXPECT(octet_pick(&r, script, 1, &thread), OCTET_OTHER_KIND);
    EXPECT(octet_script(&r, script, 3, &script_length), OCTET_READY);
    EXPECT(memcmp(script, "fue", 4), 0);
    EXPECT(octet_script(&r, script, sizeof script, &script_length), OCTET_READY);
    EXPECT(octet_log(&r, journal, sizeof journal, &journal_length), OCTET_READY);
    octet_free(&r), octet_free(&r);
    EXPECT(octet_log(&r, journal, sizeof journal, &journal_length), OCTET_NO_RECORD);
}

static void at_follow(void) {
    static const uint8_t unordered[] = {'O', 'C', 'T', 'L', 1, 2, 0, 0, 0, 1, 0, 0, 0, 0, 0, 0, 0, 1, 0, 0, 0, 0};
    static const uint8_t too_few[] = {'O', 'C', 'T', 'L', 1, 2, 0, 0, 0, 0, 0, 0, 0, 0, 0, 0, 0, 1, 0, 0, 0, 0};
    const uint8_t *other = (const uint8_t *)TEXT;
    octet_session t[2] = {{0}, {0}};
    EXPECT(octet_follow(other, 6, journal, journal_length, t, 2), OCTET_BAD_TEXT);
    EXPECT(octet_follow(script, script_length, other, 9, t, 2), OCTET_BAD_LOG);
    EXPECT(octet_follow(script, script_length, journal, journal_length - 1, t, 2), OCTET_BAD_LOG);
    EXPECT(octet_follow(other, strlen(TEXT), journal, journal_length, t, 2), OCTET_MISFIT);
    EXPECT(octet_follow(script, script_length, too_few, sizeof too_few, t, 2), OCTET_MISFIT);
    EXPECT(octet_follow(script, script_length, unordered, sizeof unordered, t, 2), OCTET_UNORDERED);
    EXPECT(follow(t, 1), OCTET_OTHER_SESSIONS);
    EXPECT(t[0].at == NULL, 1);
}

/* Thread 1 asks first. */
static void run_again(void) {
    octet_session t[2] = {{0}, {0}};
    octet_record r = {0};
    uint64_t out = 7;
    size_t length = 0;
    EXPECT(follow(t, 2), OCTET_READY);
    EXPECT(octet_update(&t[1], OCTET_ADD, 0, 1, 0, &out), OCTET_RESTING);
    EXPECT(octet_start(&t[1]), OCTET_READY);
    EXPECT(octet_start(&t[1]), OCTET_RUNNING);
    EXPECT(octet_poll(&t[1], &out), OCTET_NOT_BEGUN);
    EXPECT(octet_access(&t[1], OCTET_READ, 1, 0, &out), OCTET_NO_OBJECT);
    EXPECT(octet_update(&t[1], OCTET_ADD, 0, 1, 0, &out), OCTET_PENDING);
    EXPECT(octet_stop(&t[1]), OCTET_BEGUN);
    EXPECT(out, 7);
    EXPECT(octet_start(&t[0]), OCTET_READY);
    EXPECT(octet_access(&t[0], OCTET_WRITE, 0, 9, &out), OCTET_READY);
    EXPECT(octet_end(&t[0], &out), OCTET_READY);
    EXPECT(octet_start(&t[0]), OCTET_RESTING);
    EXPECT(octet_poll(&t[1], &out), OCTET_READY);
    EXPECT(out, 9);
    EXPECT(octet_end(&t[1], &out), OCTET_READY);
    EXPECT(octet_close(t, 2, &r), OCTET_READY);
    EXPECT(octet_values(&r, &out, 1, &length), OCTET_READY);
    EXPECT(out, 10);
    octet_free(&r);
    EXPECT(follow(t, 2), OCTET_READY);
    EXPECT(octet_close(t, 2, &r), OCTET_NOT_WHOLE);
}

static void leave_the_recording(void) {
    octet_session t[2] = {{0}, {0}};
    octet_record r = {0};
    uint64_t out = 7;
    EXPECT(follow(t, 2), OCTET_READY);
    EXPECT(octet_start(&t[0]), OCTET_READY);
    EXPECT(octet_start(&t[1]), OCTET_READY);
    EXPECT(octet_update(&t[1], OCTET_ADD, 0, 1, 0, &out), OCTET_PENDING);
    EXPECT(octet_access(&t[0], OCTET_WRITE, 0, 8, &out), OCTET_DIVERGED);
    EXPECT(out, 0);
    EXPECT(octet_poll(&t[1], &out), OCTET_HALTED);
    EXPECT(octet_close(t, 2, &r), OCTET_STILL_RUNNING);
    out = 7;
    EXPECT(follow(t, 2), OCTET_READY);
    EXPECT(octet_start(&t[0]), OCTET_READY);
    EXPECT(octet_start(&t[1]), OCTET_READY);
    EXPECT(octet_end(&t[0], &out), OCTET_DIVERGED);
    EXPECT(out, 0);
    EXPECT(octet_update(&t[1], OCTET_ADD, 0, 1, 0, &out), OCTET_HALTED);
    EXPECT(octet_stop(&t[0]), OCTET_READY);
    EXPECT(octet_stop(&t[1]), OCTET_READY);
    EXPECT(octet_close(t, 2, &r), OCTET_NOT_WHOLE);
    EXPECT(r.at == NULL, 1);
}

/* Both threads of a second run have made all that was recorded. */
static void follow_whole(octet_session *t) {
    uint64_t out = 0;
    EXPECT(follow(t, 2), OCTET_READY);
    EXPECT(octet_start(&t[0]), OCTET_READY);
    EXPECT(octet_access(&t[0], OCTET_WRITE, 0, 9, &out), OCTET_READY);
    EXPECT(octet_end(&t[0], &out), OCTET_READY);
    EXPECT(octet_start(&t[1]), OCTET_READY);
    EXPECT(octet_update(&t[1], OCTET_ADD, 0, 1, 0, &out), OCTET_READY);
    EXPECT(octet_end(&t[1], &out), OCTET_READY);
}

static void close_two_runs(void) {
    octet_session s[2] = {{0}, {0}}, t[2] = {{0}, {0}};
    for (int before = 0; before < 2; before++) {
        EXPECT(open_text(TEXT, s, 2), OCTET_READY);
        follow_whole(t);
        close_others(&s[0], &t[1], &s[1], &t[0], before, OCTET_OTHER_SESSIONS);
        follow_whole(s);
        follow_whole(t);
        close_others(&s[0], &t[1], &s[1], &t[0], before, OCTET_TWO_RUNS);
        follow_whole(s);
        close_others(&s[1], &s[0], &t[0], &t[1], before, OCTET_OUT_OF_ORDER);
    }
}

static void at_a_schedule(void) {
    static const uint8_t none[17] = {0}, third[3] = {0, 0, 2}, both[2] = {1, 1};
    octet_turns t = {0};
    uint8_t thread = 7;
    EXPECT(octet_pick(&t, both, 2, &thread), OCTET_NO_SCHEDULE);
    EXPECT(octet_schedule(&t, 3, 1, 1), OCTET_NO_WAY);
    EXPECT(t.at == NULL, 1);
    for (uint8_t way = OCTET_UNIFORM; way <= OCTET_PRIORITIES; way++) {
        EXPECT(octet_schedule(&t, way, 1, 100), OCTET_READY);
        EXPECT(octet_schedule(&t, 255, 1, 1), OCTET_NO_WAY);
        EXPECT(octet_start(&t), OCTET_OTHER_KIND);
        thread = 7;
        EXPECT(octet_pick(&t, none, 0, &thread), OCTET_BAD_SIZE);
        EXPECT(octet_pick(&t, none, 17, &thread), OCTET_BAD_SIZE);
        EXPECT(octet_pick(&t, none, 16, &thread), OCTET_OVER);
        EXPECT(thread, 7);
        for (int again = 0; again < 99; again++) EXPECT(octet_pick(&t, third, 3, &thread), OCTET_READY);
        EXPECT(thread, 2);
        int others = 0, row = 0, longest = 0;
        for (int again = 0; again < 999; again++) {
            uint8_t before = thread;
            EXPECT(octet_pick(&t, both, 2, &thread), OCTET_READY);
            row = before == thread ? row + 1 : 1;
            longest = row > longest ? row : longest;
            others += before != thread;
        }
        EXPECT(longest <= 64 && others >= 15, 1);
    }
    octet_free(&t);
    EXPECT(t.at == NULL, 1);
}

int main(void) {
    texts_of_statuses();
    at_a_schedule();
    without_a_session();
    at_open();
    out_of_turn();
    while_an_access_waits();
    at_close();
    keep_a_record();
    at_follow();
    run_again();
    leave_the_recording();
    close_two_runs();
    if (!wrong) printf("misuse: all as expected\n");
    return wrong;
}
