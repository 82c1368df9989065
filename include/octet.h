/* Octet for C and C++: the threads of a program make their accesses on a proved heap. Their run becomes a
 * script and its log, which `octet` reads, and the same program can be run again by them. A run of any length
 * becomes a marks file, and can be run again by it.
 *
 * A session is one thread of a run. No call waits, takes a lock or starts a thread. Whatever a call needs of
 * its session is tested, and a status says what was missing. Six things no call can test, and the caller owes:
 *
 *   1. A handle, an `octet_session`, `octet_stream`, `octet_record` or `octet_turns`, is zeroed before its first use.
 *   2. From then on only these calls write to it. It may be moved: then its old place is not used, or zeroed.
 *   3. No pointer is null, also where it points to nothing: any address of yours will do. Only the `out` of `octet_script`,
 *      `octet_log`, `octet_values`, `octet_head` and `octet_take` may be, and has no room then. Each pointer points to as much as
 *      is said beside it, and no two to the same memory.
 *   4. A handle is given to one call at a time. Different sessions and streams may be in calls at once.
 *   5. A handle goes to another thread by what orders memory: a lock, a thread's start or end, an atomic.
 *   6. No call is made from a signal handler, or in a child after `fork`. */
#ifndef OCTET_H
#define OCTET_H

#include <stddef.h>
#include <stdint.h>

#ifdef __cplusplus
extern "C" {
#endif

/* One pointer. What it holds is freed by `octet_close`, by `octet_free`, or where a call puts another thing there. Each
 * call writes to its handle: threads are quicker whose sessions do not lie side by side, as on their own stacks. For these are
 * the calls whose names end with `_each`. */
typedef struct octet_handle {
    void *at;
} octet_session, octet_stream, octet_record, octet_turns;

enum octet_mode {
    OCTET_READ = 0,
    OCTET_WRITE = 1
};

/* What an update makes of the value that it finds. All are modulo 2^64, and without a sign. */
enum octet_change {
    OCTET_ADD = 0,
    OCTET_SUB = 1,
    OCTET_SWAP = 2,
    OCTET_COMPARE_EXCHANGE = 3,
    OCTET_AND = 4,
    OCTET_OR = 5,
    OCTET_XOR = 6,
    OCTET_MAX = 7,
    OCTET_MIN = 8
};

/* How a schedule picks the next of the threads that are ready. */
enum octet_way {
    OCTET_UNIFORM = 0,    /* any of them */
    OCTET_BURSTS = 1,     /* one makes up to `most` accesses in a row, and then another one */
    OCTET_PRIORITIES = 2  /* the one of the lowest rank; up to `most` times the thread at work is put last */
};

enum octet_status {
    OCTET_READY = 0,
    OCTET_PENDING = 1,           /* the access waits for another thread: poll it */
    OCTET_ANSWERED = 1,          /* of octet_safe_point: a thread had asked */
    OCTET_OVER = 2,              /* of a long run: its recording, or its stream, has no more; of octet_pick: no
                                    thread is ready */
    OCTET_NO_SESSION = -1,       /* the handle is empty */
    OCTET_OTHER_KIND = -33,      /* the handle has something else than what the call takes */
    OCTET_RESTING = -2,          /* the thread is not started, or is stopped */
    OCTET_RUNNING = -3,          /* the thread is started already */
    OCTET_BEGUN = -4,            /* an access was begun: poll it first */
    OCTET_NOT_BEGUN = -5,        /* no access was begun */
    OCTET_NO_OBJECT = -6,        /* the heap has no object of this number */
    OCTET_SPENT = -7,            /* the thread has less fuel left than an access may take, which is 3; or, in a
                                    long run, it has made 2^42 accesses */
    OCTET_NO_MODE = -8,          /* the mode is none of octet_mode */
    OCTET_NO_MEMORY = -9,
    OCTET_BAD_TEXT = -10,        /* the text is no script */
    OCTET_OTHER_SESSIONS = -11,  /* not as many sessions as the heap has; of octet_close: or not of one kind */
    OCTET_OUT_OF_ORDER = -32,    /* of octet_close: a session is not in the place of its thread */
    OCTET_TWO_RUNS = -29,        /* of octet_close: the sessions are in order, but of two heaps */
    OCTET_STILL_RUNNING = -12,   /* a session is not stopped */
    OCTET_TOO_LONG = -13,        /* the run is too long for its files */
    OCTET_NO_RECORD = -14,       /* the handle is empty */
    /* Of threads that are run again: */
    OCTET_DIVERGED = -15,        /* the recording has another access here, or none */
    OCTET_HALTED = -16,          /* the access would wait for a thread that has diverged; or what the thread
                                    was fed is no recording */
    OCTET_MISFIT = -17,          /* the log does not fit the script, or is of another script */
    OCTET_UNORDERED = -18,       /* the log leaves conflicts of the script unordered */
    OCTET_NOT_WHOLE = -19,       /* a thread has not made all that was recorded of it */
    OCTET_BAD_LOG = -20,         /* the bytes are no log */
    OCTET_NO_CHANGE = -21,       /* the change is none of octet_change */
    /* Of long runs: */
    OCTET_BAD_SIZE = -22,        /* not 1 to 16 threads, or not 1 to 65,535 objects */
    OCTET_NO_STREAM = -23,       /* the handle is empty */
    OCTET_NO_ROOM = -24,         /* there are more bytes than there is room for */
    OCTET_BAD_MARKS = -25,       /* the bytes are no marks file */
    OCTET_OTHER_RUN = -26,       /* the marks file is of another run */
    OCTET_NO_NOTES = -30,        /* the record has no accesses that were noted */
    /* Of schedules: */
    OCTET_NO_WAY = -27,          /* the way is none of octet_way */
    OCTET_NO_SCHEDULE = -28      /* the handle is empty */
};

/* Opens a heap, and puts a session behind each handle: as many as the text has threads, in their order. The text is
 * a script: `fuel N`, then `object NAME N` for each object, then `thread` for each thread. Its commands are left
 * aside. An access takes one to three units of its thread's fuel, and needs three. What a handle held is freed. With
 * any status but OCTET_READY the handles stay as they are, and so in `octet_follow`. */
int32_t octet_open(const uint8_t *text, size_t length, octet_session *sessions, size_t count);

/* Opens a recording to run its threads again. An access is pending until all that was recorded before it is made.
 * Then it is ready, with the value that it had. */
int32_t octet_follow(const uint8_t *script, size_t length, const uint8_t *log, size_t log_length,
                     octet_session *sessions, size_t count);

/* The thread runs from `octet_start` to `octet_stop`. While it is stopped no other thread waits for it: stop it
 * before it sleeps, waits for a lock or reads a file. */
int32_t octet_start(octet_session *session);
int32_t octet_stop(octet_session *session);

/* The thread is over: stops it. A thread that is run again must have made all that was recorded of it; else this
 * answers OCTET_DIVERGED, and `out` is how many accesses it has made. OCTET_PENDING: call it again. After
 * OCTET_READY the thread starts no more; after any other status it still runs. */
int32_t octet_end(octet_session *session, uint64_t *out);

/* Answers the threads that wait for this one: OCTET_ANSWERED where there was one, else OCTET_READY. Each access answers
 * them first. Call it in long stretches without accesses. */
int32_t octet_safe_point(octet_session *session);

/* A region begins with the next access, and the one before ends there. `octet regions` tells whether they could
 * have run one after another. */
int32_t octet_region(octet_session *session);

/* Reads or writes an object, which counts from 0. `out` is the value read, or the one written. OCTET_PENDING: poll.
 * OCTET_DIVERGED: `out` is how many accesses the thread has made. With any other status `out` stays. */
int32_t octet_access(octet_session *session, uint8_t mode, uint16_t object, uint64_t value, uint64_t *out);

/* Reads and writes an object in one access. `out` is the value found. OCTET_COMPARE_EXCHANGE stores `operand` where
 * it finds `expected`, and has stored it exactly where `out` is `expected`. No other change reads `expected`. */
int32_t octet_update(octet_session *session, uint8_t change, uint16_t object, uint64_t operand, uint64_t expected,
                     uint64_t *out);

/* Goes on with the access that was begun, and answers as the call that began it. Mostly another thread hands the object
 * over within a microsecond. Where threads of a long run take an object from each other, up to 48 calls in a row only let
 * the others make more accesses: so do not sleep after each. */
int32_t octet_poll(octet_session *session, uint64_t *out);

/* Ends the run, and puts its record behind the handle. Give all sessions of one call that opened them, in order,
 * each stopped or ended. They are gone afterwards, whatever is answered. With any status but OCTET_READY `record`
 * stays as it is. */
int32_t octet_close(octet_session *sessions, size_t count, octet_record *record);

/* What the record has: the text of the script, the bytes of the log with the text's digest, the objects' values at
 * the end. That of a long run has values alone, and a window has none. Each call copies as much as there is room for;
 * `length` is how much there is. `octet_script(&record, NULL, 0, &length)` tells the length alone. */
int32_t octet_script(octet_record *record, uint8_t *out, size_t room, size_t *length);
int32_t octet_log(octet_record *record, uint8_t *out, size_t room, size_t *length);
int32_t octet_values(octet_record *record, uint64_t *out, size_t room, size_t *length);

/* Frees what a handle holds. It may be used anew. */
void octet_free(octet_session *handle);

/* Opens a long run: of any length, over objects with these starting values. Puts a session and its stream behind
 * the handles, one of each for each thread, in order; `count` and `stream_count` are both how many threads there
 * are. What a handle held is freed. With any status but OCTET_READY the handles stay as they are, and so in
 * `octet_follow_long`. The calls above take its sessions. Take what the streams have while the threads run: an
 * access is pending, too, while too much of its thread was not taken. A thread that is only stopped has not handed
 * on its last accesses: `octet_end` does, or answers OCTET_PENDING until enough was taken. */
int32_t octet_open_long(const uint64_t *starts, size_t objects, octet_session *sessions, size_t count,
                        octet_stream *streams, size_t stream_count);

/* The starting values of the objects that a text declares, which is as for `octet_open`. Copies as many as there is room for;
 * `length` is how many there are. So a long run opens by a text, too: by these values, with the text as what `octet_head` and
 * `octet_follow_long` call `declared`. */
int32_t octet_starts(const uint8_t *text, size_t text_length, uint64_t *out, size_t room, size_t *length);

/* What a marks file begins with. `declared` is whatever tells your run from others, as its words: a file of other
 * bytes is another run's. Copies as much as there is room for; `length` is how much there is. */
int32_t octet_head(const uint64_t *starts, size_t objects, uint8_t threads, const uint8_t *declared,
                   size_t declared_length, uint8_t *out, size_t room, size_t *length);

/* Takes the next piece of a thread, to be written behind what the file has; `length` is how long it is. Pieces of
 * several threads may stand in any order, but those of one in the order in which they came. OCTET_PENDING: the
 * thread has none yet. OCTET_OVER: its last was taken. OCTET_NO_ROOM: `length` is how much room it wants, and
 * nothing is taken. The stream may outlive its session. */
int32_t octet_take(octet_stream *stream, uint8_t *out, size_t room, size_t *length);

/* Opens a long run that is made again by a marks file, which begins as `octet_head` says. An access is pending until
 * the thread was fed enough, and all is made that was recorded before it. OCTET_OVER: the recording ends here, since
 * the file was cut; this is no divergence. OCTET_DIVERGED: `out` is how many accesses the thread had made where it
 * was found, which may be later than it left its recording. Each thread notes its last accesses, `last` of them, for a
 * window; or none, where that is 0. */
int32_t octet_follow_long(const uint64_t *starts, size_t objects, const uint8_t *declared, size_t declared_length,
                          uint16_t last, octet_session *sessions, size_t count, octet_stream *streams,
                          size_t stream_count);

/* Feeds a thread the next bytes of the file; `taken` is how many of them were taken. 0: the thread has no room yet,
 * so feed it again later. What the bytes have of the thread comes to it with the next call, which may have none.
 * Each stream is fed the whole file. OCTET_BAD_MARKS: `taken` is the place of the file that is refused. OCTET_OVER:
 * it was said that the file has no more. */
int32_t octet_feed(octet_stream *stream, const uint8_t *bytes, size_t length, uint64_t *taken);

/* Says that the file has no more. Call it until it answers OCTET_READY: OCTET_PENDING, while the thread has no room;
 * OCTET_BAD_MARKS, once, where the file is refused at the place `at`, and the thread's recording ends there. */
int32_t octet_feed_end(octet_stream *stream, uint64_t *at);

/* A window has the last accesses of a long run as a script and its log. The run is made again once by
 * `octet_follow_long`, whole, with `last`. With any status but OCTET_READY the next two calls leave all handles as they
 * are, but that after OCTET_NO_MEMORY `octet_search` may have freed the notes.
 *
 * Begins a search, by the record of that run. Its notes go to the search, its values stay. A search is a stream: feed
 * it the whole marks file by `octet_feed`, which takes all bytes, and then `octet_feed_end` finds the window. It finds
 * none after OCTET_BAD_MARKS or OCTET_NO_MEMORY, nor after OCTET_OTHER_RUN: the threads cannot have been made again by
 * this file. */
int32_t octet_search(octet_record *record, octet_stream *search);

/* Puts a record with the window's script and log behind the handle `window`, once `search` has found it. An object has
 * at first the value that its first access found, or 0 where that is a write. OCTET_TOO_LONG: make a window of fewer
 * accesses. OCTET_OTHER_RUN: the accesses and the marks do not make a run. */
int32_t octet_window(octet_stream *search, octet_record *window);

/* What to do about a status, in a few words. */
static inline const char *octet_status_text(int32_t status) {
    switch (status) {
    case OCTET_READY: return "done";
    case OCTET_PENDING: return "the access waits for another thread, or a thread had asked: poll";
    case OCTET_OVER: return "the recording or the stream has no more, or no thread is ready";
    case OCTET_NO_SESSION: return "the handle is empty: give it a session first";
    case OCTET_OTHER_KIND: return "the handle has something else than what the call takes";
    case OCTET_RESTING: return "the thread is not started, or is stopped: call octet_start";
    case OCTET_RUNNING: return "the thread is started already";
    case OCTET_BEGUN: return "an access was begun: poll it first";
    case OCTET_NOT_BEGUN: return "no access was begun";
    case OCTET_NO_OBJECT: return "the heap has no object of this number";
    case OCTET_SPENT: return "the thread has used up its accesses: give more fuel";
    case OCTET_NO_MODE: return "the mode is none of octet_mode";
    case OCTET_NO_MEMORY: return "no memory";
    case OCTET_BAD_TEXT: return "the text is no script";
    case OCTET_OTHER_SESSIONS: return "not as many sessions as the heap has, or not of one kind";
    case OCTET_OUT_OF_ORDER: return "a session is not in the place of its thread";
    case OCTET_TWO_RUNS: return "the sessions are of two heaps";
    case OCTET_STILL_RUNNING: return "a session is not stopped: call octet_end or octet_stop";
    case OCTET_TOO_LONG: return "the run is too long for its files: make it shorter, or a long run";
    case OCTET_NO_RECORD: return "the handle has no record";
    case OCTET_DIVERGED: return "the thread leaves its recording: it asks for another access, or ends early";
    case OCTET_HALTED: return "the access would wait for a thread that has left its recording";
    case OCTET_MISFIT: return "the log is of another script";
    case OCTET_UNORDERED: return "the log leaves conflicts unordered";
    case OCTET_NOT_WHOLE: return "a thread has not made all that was recorded of it";
    case OCTET_BAD_LOG: return "the bytes are no log";
    case OCTET_NO_CHANGE: return "the change is none of octet_change";
    case OCTET_BAD_SIZE: return "not 1 to 16 threads, or not 1 to 65,535 objects";
    case OCTET_NO_STREAM: return "the handle has no stream";
    case OCTET_NO_ROOM: return "there are more bytes than there is room for";
    case OCTET_BAD_MARKS: return "the bytes are no marks file";
    case OCTET_OTHER_RUN: return "the marks file is of another run";
    case OCTET_NO_NOTES: return "the record has no accesses that were noted";
    case OCTET_NO_WAY: return "the way is none of octet_way";
    case OCTET_NO_SCHEDULE: return "the handle has no schedule";
    default: return "no status of octet.h";
    }
}

/* Puts a new schedule behind the handle; what it held is freed. With any status but OCTET_READY the handle stays as
 * it is. By a schedule the threads go on one at a time: before each access pick one, and let that one alone make it. `threads.h`,
 * beside `bank.c`, does so for the threads of a program, with locks and conditions. The same way, seed and `most` pick the same
 * threads, where the same ones are ready. */
int32_t octet_schedule(octet_turns *turns, uint8_t way, uint64_t seed, uint32_t most);

/* Picks the thread that makes the next access. `ready` has a byte for each thread, of which there are 1 to 16: 0
 * where it cannot go on. One that was picked 64 times in a row is picked again only where no other is ready. With
 * any status but OCTET_READY nothing changes. */
int32_t octet_pick(octet_turns *turns, const uint8_t *ready, size_t threads, uint8_t *thread);

/* Made of the calls above, and by the header alone. The first are what these names mean in your program: the same calls, of
 * which `out` may be null. */
static inline int32_t octet_script_or_length(octet_record *record, uint8_t *out, size_t room, size_t *length) {
    uint8_t none = 0;
    return octet_script(record, out ? out : &none, out ? room : 0, length);
}

static inline int32_t octet_log_or_length(octet_record *record, uint8_t *out, size_t room, size_t *length) {
    uint8_t none = 0;
    return octet_log(record, out ? out : &none, out ? room : 0, length);
}

static inline int32_t octet_values_or_length(octet_record *record, uint64_t *out, size_t room, size_t *length) {
    uint64_t none = 0;
    return octet_values(record, out ? out : &none, out ? room : 0, length);
}

static inline int32_t octet_head_or_length(const uint64_t *starts, size_t objects, uint8_t threads, const uint8_t *declared,
                                           size_t declared_length, uint8_t *out, size_t room, size_t *length) {
    uint8_t none = 0;
    return octet_head(starts, objects, threads, declared, declared_length, out ? out : &none, out ? room : 0, length);
}

static inline int32_t octet_take_or_length(octet_stream *stream, uint8_t *out, size_t room, size_t *length) {
    uint8_t none = 0;
    return octet_take(stream, out ? out : &none, out ? room : 0, length);
}

#define octet_script octet_script_or_length
#define octet_log octet_log_or_length
#define octet_values octet_values_or_length
#define octet_head octet_head_or_length
#define octet_take octet_take_or_length

/* For handles that lie apart, as each in what a program has of its thread: the calls that take an array of handles, by an array
 * of pointers to them. They answer as the call of the same name does. */

enum { OCTET_GATHERED = 17 }; /* one more than a run has threads: the library refuses so many */

static inline size_t octet_gather(struct octet_handle *const *from, size_t count, struct octet_handle *to) {
    if (count > OCTET_GATHERED) count = OCTET_GATHERED;
    for (size_t i = 0; i < count; i++) to[i] = *from[i], from[i]->at = NULL;
    return count;
}

static inline void octet_spread(const struct octet_handle *from, size_t gathered, struct octet_handle *const *to) {
    for (size_t i = 0; i < gathered; i++) *to[i] = from[i];
}

static inline int32_t octet_open_each(const uint8_t *text, size_t length, octet_session *const *sessions, size_t count) {
    octet_session all[OCTET_GATHERED];
    size_t gathered = octet_gather(sessions, count, all);
    int32_t status = octet_open(text, length, all, gathered);
    octet_spread(all, gathered, sessions);
    return status;
}

static inline int32_t octet_follow_each(const uint8_t *script, size_t length, const uint8_t *log, size_t log_length,
                                        octet_session *const *sessions, size_t count) {
    octet_session all[OCTET_GATHERED];
    size_t gathered = octet_gather(sessions, count, all);
    int32_t status = octet_follow(script, length, log, log_length, all, gathered);
    octet_spread(all, gathered, sessions);
    return status;
}

static inline int32_t octet_open_long_each(const uint64_t *starts, size_t objects, octet_session *const *sessions, size_t count,
                                           octet_stream *const *streams, size_t stream_count) {
    octet_session all[OCTET_GATHERED];
    octet_stream each[OCTET_GATHERED];
    size_t gathered = octet_gather(sessions, count, all), beside = octet_gather(streams, stream_count, each);
    int32_t status = octet_open_long(starts, objects, all, gathered, each, beside);
    octet_spread(all, gathered, sessions);
    octet_spread(each, beside, streams);
    return status;
}

static inline int32_t octet_follow_long_each(const uint64_t *starts, size_t objects, const uint8_t *declared, size_t declared_length,
                                             uint16_t last, octet_session *const *sessions, size_t count,
                                             octet_stream *const *streams, size_t stream_count) {
    octet_session all[OCTET_GATHERED];
    octet_stream each[OCTET_GATHERED];
    size_t gathered = octet_gather(sessions, count, all), beside = octet_gather(streams, stream_count, each);
    int32_t status = octet_follow_long(starts, objects, declared, declared_length, last, all, gathered, each, beside);
    octet_spread(all, gathered, sessions);
    octet_spread(each, beside, streams);
    return status;
}

static inline int32_t octet_close_each(octet_session *const *sessions, size_t count, octet_record *record) {
    octet_session all[OCTET_GATHERED];
    size_t gathered = octet_gather(sessions, count, all);
    for (size_t i = gathered; i < count; i++) octet_free(sessions[i]);
    return octet_close(all, gathered, record);
}

#ifdef __cplusplus
}
#endif
#endif
