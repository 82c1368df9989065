/* Any call on any handle: `fuzz SEED CALLS` makes so many calls with arguments that the seed picks, right and wrong ones, on a
 * few handles, and says how often each status was answered. Build it with a sanitizer. */
#include "octet.h"
#include <inttypes.h>
#include <stdio.h>
#include <stdlib.h>
#include <string.h>

enum { HANDLES = 12, ROOM = 4096, LEAST = -33, MOST = 2, RECORDINGS = 4, MARKS = 65536 };

static octet_session handles[HANDLES];
static unsigned long told[MOST - LEAST + 1];
static uint64_t state;

/* The script and the log of a record that was kept. The first one stays: its log orders nothing. */
static struct recording {
    uint8_t script[ROOM], log[ROOM];
    size_t script_length, log_length;
} recordings[RECORDINGS];

/* What the streams gave since a long run was opened, and how much of it was fed to what is at each place. */
static uint8_t marks[MARKS];
static size_t marks_length, fed[HANDLES];
static const uint64_t STARTS[] = {5, 6};
static const uint8_t DECLARED[] = "fuzz";

static const char UNORDERED[] = "fuel 12\nobject x 5\nthread\nread r0 x\nthread\nset r0 1\nwrite x r0\n";
static const uint8_t NO_MARKS[] = {'O', 'C', 'T', 'L', 1, 2, 0, 0, 0, 1, 0, 0, 0, 0, 0, 0, 0, 1, 0, 0, 0, 0};

static const char *const TEXTS[] = {
    "fuel 12\nobject x 5\nthread\nthread\n",
    "fuel 40\nobject x 5\nobject y 18446744073709551615\nthread\nthread\nthread\n",
    "fuel 1\nthread\n",
    "fuel 60\nobject x 0\nthread\n",
    "object x\n",
    "",
    "fuel 12\nobject x 5\nthread\nread r0 x\nthread\n",
};

/* splitmix64, below a bound */
static uint64_t pick(uint64_t bound) {
    uint64_t mixed = state += UINT64_C(0x9e3779b97f4a7c15);
    mixed = (mixed ^ (mixed >> 30)) * UINT64_C(0xbf58476d1ce4e5b9);
    mixed = (mixed ^ (mixed >> 27)) * UINT64_C(0x94d049bb133111eb);
    return (mixed ^ (mixed >> 31)) % bound;
}

static octet_session *any(void) {
    return &handles[pick(HANDLES)];
}

/* Mostly as many as there are threads, at a few places; sometimes any. */
static size_t some(octet_session **first) {
    size_t count = pick(8) ? 1 + pick(3) : pick(5);
    size_t at = pick(8) ? 3 * pick(HANDLES / 3) : pick(HANDLES - count);
    *first = &handles[at];
    return count < HANDLES - at ? count : HANDLES - at;
}

static void fail(const char *what) {
    printf("fuzz: %s\n", what);
    exit(1);
}

static int32_t open_any(void) {
    const char *text = TEXTS[pick(sizeof TEXTS / sizeof *TEXTS)];
    octet_session *first;
    size_t count = some(&first);
    return octet_open((const uint8_t *)text, strlen(text), first, count);
}

static int32_t follow_any(void) {
    struct recording *of = &recordings[pick(RECORDINGS)], *other = pick(8) ? of : &recordings[pick(RECORDINGS)];
    size_t spoiled = other->log_length && !pick(4) ? pick(other->log_length) : ROOM;
    size_t length = other->log_length && !pick(8) ? pick(other->log_length) : other->log_length;
    uint8_t change = (uint8_t)(1 + pick(255));
    octet_session *first;
    size_t count = some(&first);
    if (spoiled < ROOM) other->log[spoiled] ^= change;
    int32_t status = octet_follow(of->script, of->script_length, other->log, length, first, count);
    if (spoiled < ROOM) other->log[spoiled] ^= change;
    return status;
}

/* Keeps the record's bytes, from buffers of which only as much as is said may be written. */
static int32_t keep(octet_record *record) {
    struct recording *kept = &recordings[1 + pick(RECORDINGS - 1)];
    size_t room = pick(4) ? ROOM : pick(64), length = ROOM + 1;
    uint8_t *bytes = (uint8_t *)malloc(room ? room : 1);
    if (!bytes) fail("no memory");
    int32_t status = octet_script(record, bytes, room, &length);
    if (status == OCTET_READY && room == ROOM && length <= ROOM) {
        memcpy(kept->script, bytes, length);
        kept->script_length = length;
        if (octet_log(record, bytes, room, &length) != OCTET_READY || length > ROOM) fail("a script without its log");
        memcpy(kept->log, bytes, length);
        kept->log_length = length;
    }
    free(bytes);
    return status;
}

static int32_t values(octet_record *record) {
    uint64_t all[2];
    size_t room = pick(3), length = 77;
    int32_t status = octet_values(record, all, room, &length);
    if ((status == OCTET_READY) != (length <= 2)) fail("a length of no values");
    return status;
}

static int32_t close_any(void) {
    octet_session *first;
    size_t count = some(&first);
    octet_record record = {0};
    int32_t status = octet_close(first, count, &record);
    for (size_t at = 0; at < count; at++)
        if (first[at].at) fail("a session is left after a close");
    if ((status == OCTET_READY) != (record.at != NULL)) fail("a record after a refusal, or none after a close");
    if (status == OCTET_READY && pick(4)) keep(&record);
    octet_session *place = any();
    octet_free(place);
    *place = record;
    return status;
}

static void begin_marks(size_t threads) {
    size_t length = 0;
    if (octet_head(STARTS, 2, (uint8_t)threads, DECLARED, sizeof DECLARED, marks, MARKS, &length) == OCTET_READY) marks_length = length;
}

/* Sessions are in the first half of the handles, and their streams in the other. */
static int32_t open_long_any(int again) {
    size_t at = 3 * pick(HANDLES / 6), count = pick(16) ? 1 + pick(3) : pick(2) ? 0 : 17;
    size_t streams = count > 3 ? 17 : pick(16) ? count : pick(4), objects = pick(16) ? 2 : 0, words = pick(16) ? sizeof DECLARED : 2;
    octet_session *first = &handles[at], *second = &handles[HANDLES / 2 + at];
    if (!again) {
        int32_t status = octet_open_long(STARTS, objects, first, count, second, streams);
        if (status == OCTET_READY) begin_marks(count);
        return status;
    }
    int32_t status = octet_follow_long(STARTS, objects, DECLARED, words, (uint16_t)pick(3), first, count, second, streams);
    if (status == OCTET_READY) memset(&fed[HANDLES / 2 + at], 0, count * sizeof *fed);
    return status;
}

/* From a buffer of which only as much as is said may be written. */
static int32_t take(octet_stream *stream) {
    size_t room = pick(4) ? 256 : pick(24), length = 0;
    uint8_t *bytes = (uint8_t *)malloc(room ? room : 1);
    if (!bytes) fail("no memory");
    int32_t status = octet_take(stream, bytes, room, &length);
    if (status == OCTET_READY && length > room) fail("more was taken than there is room for");
    if (status == OCTET_NO_ROOM && length <= room) fail("there was room");
    if (status == OCTET_READY && marks_length + length <= MARKS) {
        memcpy(marks + marks_length, bytes, length);
        marks_length += length;
    }
    free(bytes);
    return status;
}

static int32_t feed(size_t at) {
    size_t there = fed[at] < marks_length ? marks_length - fed[at] : 0, length = pick(4) ? there : there ? pick(there) : 0;
    uint64_t taken = 0;
    int32_t status = octet_feed(&handles[at], marks + fed[at], length, &taken);
    if (status == OCTET_READY && taken > length) fail("more was fed than there is");
    if (status == OCTET_READY) fed[at] += taken;
    return status;
}

static int32_t stream_any(void) {
    size_t at = pick(8) ? HANDLES / 2 + pick(HANDLES / 2) : pick(HANDLES);
    uint64_t place = 0;
    switch (pick(12)) {
    case 0: return octet_feed_end(&handles[at], &place);
    case 1: case 2: case 3: return feed(at);
    default: return take(&handles[at]);
    }
}

/* No two of the handles are the same one. */
static int32_t window_any(void) {
    size_t at = pick(HANDLES), next = 1 + pick(HANDLES - 1);
    octet_stream *search = &handles[at], *second = &handles[(at + next) % HANDLES];
    return pick(2) == 0 ? octet_search(search, second) : octet_window(search, second);
}

/* The picked thread is one that is ready. */
static int32_t schedule_any(void) {
    octet_turns *turns = pick(8) ? &handles[HANDLES / 2 - 1] : any();
    if (!pick(4)) return octet_schedule(turns, (uint8_t)(pick(8) ? pick(3) : pick(256)), pick(1000), (uint32_t)pick(100));
    size_t threads = pick(16) ? 1 + pick(16) : pick(20);
    uint8_t *ready = (uint8_t *)malloc(threads ? threads : 1), thread = 99;
    if (!ready) fail("no memory");
    for (size_t at = 0; at < threads; at++) ready[at] = (uint8_t)(pick(3) ? 0 : pick(256));
    int32_t status = octet_pick(turns, ready, threads, &thread);
    if (status == OCTET_READY ? thread >= threads || !ready[thread] : thread != 99) fail("a thread that is not ready");
    free(ready);
    return status;
}

/* What a thread does; mostly what may be asked of it. */
static int32_t ask(void) {
    octet_session *session = any();
    uint64_t out = 0;
    uint16_t object = (uint16_t)(pick(16) ? pick(2) : pick(65536));
    switch (pick(9)) {
    case 0: return octet_start(session);
    case 1: return octet_stop(session);
    case 2: return octet_end(session, &out);
    case 3: return octet_region(session);
    case 4: return octet_safe_point(session);
    case 5: return octet_access(session, (uint8_t)(pick(32) ? pick(2) : pick(256)), object, pick(3), &out);
    case 6: return octet_update(session, (uint8_t)(pick(32) ? pick(9) : pick(256)), object, pick(3), pick(3), &out);
    default: return octet_poll(session, &out);
    }
}

static int32_t call(void) {
    uint64_t kind = pick(256);
    if (kind < 10) return open_any();
    if (kind < 13) return follow_any();
    switch (kind) {
    case 13: return octet_free(any()), OCTET_READY;
    case 14: return close_any();
    case 15: return keep(any());
    case 16: return values(any());
    case 17: case 18: return open_long_any(0);
    case 19: return open_long_any(1);
    case 20: case 21: case 22: case 23: return schedule_any();
    case 24: return window_any();
    default: return kind < 64 ? stream_any() : ask();
    }
}

/* Threads in a row that start, work and end in turn, so that runs close and are followed to their ends too. */
static void whole_run(void) {
    octet_session *first = &handles[3 * pick(HANDLES / 3)];
    struct recording *again = &recordings[pick(RECORDINGS)];
    octet_record record = {0};
    uint64_t out = 0;
    int32_t opened = pick(2) ? octet_open((const uint8_t *)TEXTS[0], strlen(TEXTS[0]), first, 2)
                             : octet_follow(again->script, again->script_length, again->log, again->log_length, first, 2);
    told[opened - LEAST]++;
    for (int thread = 0; thread < 2 && opened == OCTET_READY; thread++) {
        octet_session *session = &first[thread];
        octet_start(session);
        for (int access = 0; access < 2; access++) {
            int32_t status = octet_update(session, OCTET_ADD, 0, 3, 0, &out);
            told[status - LEAST]++;
        }
        if (octet_end(session, &out) != OCTET_READY) octet_stop(session);
    }
    int32_t closed = octet_close(first, 2, &record);
    told[closed - LEAST]++;
    if (closed == OCTET_READY) keep(&record);
    octet_free(&record);
}

/* The sessions of two runs, each in its place, and then the others, each in another one's. */
static void two_runs(void) {
    octet_session one[2] = {{0}, {0}}, other[2] = {{0}, {0}}, mixed[2];
    octet_record record = {0};
    octet_open((const uint8_t *)TEXTS[0], strlen(TEXTS[0]), one, 2);
    octet_open((const uint8_t *)TEXTS[0], strlen(TEXTS[0]), other, 2);
    mixed[0] = one[0], mixed[1] = other[1];
    told[octet_close(mixed, 2, &record) - LEAST]++;
    mixed[0] = one[1], mixed[1] = other[0];
    told[octet_close(mixed, 2, &record) - LEAST]++;
}

static void work_long(octet_session *session) {
    uint64_t out = 0;
    octet_start(session);
    for (int access = 0; access < 5; access++) {
        int32_t status = octet_update(session, OCTET_ADD, 1, 3, 0, &out);
        for (int poll = 0; poll < 99 && status == OCTET_PENDING; poll++) status = octet_poll(session, &out);
        told[status - LEAST]++;
    }
    if (octet_end(session, &out) != OCTET_READY && octet_end(session, &out) != OCTET_READY) octet_stop(session);
}

/* The threads of a long run are made again by these bytes. */
static void again_by(const uint8_t *bytes, size_t length, uint16_t last, octet_record *record) {
    octet_session *first = handles, *streams = &handles[HANDLES / 2];
    uint64_t place = 0;
    if (octet_follow_long(STARTS, 2, DECLARED, sizeof DECLARED, last, first, 2, streams, 2) != OCTET_READY) fail("a long run is not made again");
    for (int thread = 0; thread < 2; thread++) {
        if (octet_feed(&streams[thread], bytes, length, &place) != OCTET_READY || place != length) fail("a file that is not taken");
        if (octet_feed_end(&streams[thread], &place) != OCTET_READY) fail("a file that does not end");
    }
    for (int thread = 0; thread < 2; thread++) work_long(&first[thread]);
    told[octet_close(first, 2, record) - LEAST]++;
}

/* Its last accesses are searched, and made a script. */
static void last_accesses(octet_record *noted, size_t whole) {
    octet_stream search = {0};
    octet_record window = {0};
    uint64_t place = 0;
    told[octet_search(noted, &search) - LEAST]++;
    told[octet_window(&search, &window) - LEAST]++;
    told[octet_feed(&search, marks, whole, &place) - LEAST]++;
    told[octet_feed_end(&search, &place) - LEAST]++;
    int32_t made = octet_window(&search, &window);
    if ((made == OCTET_READY) != (window.at != NULL)) fail("a window after a refusal, or none");
    told[made - LEAST]++;
    octet_free(&search), octet_free(&window);
}

/* The same of a long run, which is recorded, and then made again by its file or by the half of it. */
static void whole_long_run(void) {
    octet_session *first = handles, *streams = &handles[HANDLES / 2];
    octet_record record = {0};
    told[octet_open_long(STARTS, 2, first, 2, streams, 2) - LEAST]++;
    begin_marks(2);
    for (int thread = 0; thread < 2; thread++) {
        work_long(&first[thread]);
        while (octet_take(&streams[thread], marks, 0, &(size_t){0}) == OCTET_NO_ROOM) take(&streams[thread]);
        told[take(&streams[thread]) - LEAST]++;
    }
    if (octet_close(first, 2, &record) != OCTET_READY) fail("a long run that is not closed");
    octet_free(&record);
    size_t whole = pick(2) ? marks_length : pick(marks_length);
    again_by(marks, whole, (uint16_t)pick(4), &record);
    last_accesses(&record, whole);
    octet_free(&record);
}

int main(int count, char **words) {
    if (count != 3) return 64;
    state = strtoull(words[1], NULL, 10);
    unsigned long calls = strtoul(words[2], NULL, 10);
    memcpy(recordings[0].script, UNORDERED, recordings[0].script_length = strlen(UNORDERED));
    memcpy(recordings[0].log, NO_MARKS, recordings[0].log_length = sizeof NO_MARKS);
    for (unsigned long made = 0; made < calls; made++) {
        int32_t status = call();
        if (status < LEAST || status > MOST) fail("a status that is none");
        told[status - LEAST]++;
        if (made % 256 == 0) whole_run();
        if (made % 1024 == 0) whole_long_run(), two_runs();
    }
    for (int at = 0; at < HANDLES; at++) octet_free(&handles[at]);
    int missing = 0;
    for (int32_t status = MOST; status >= LEAST; status--) {
        unsigned long times = told[status - LEAST];
        printf("status %" PRId32 ": %lu\n", status, times);
        /* There is memory, no run here is too long, and no status has the number -31. */
        missing |= !times && status != OCTET_NO_MEMORY && status != OCTET_TOO_LONG && status != -31;
    }
    if (missing) fail("a status was never answered: make more calls");
    printf("fuzz: all as expected\n");
    return 0;
}
