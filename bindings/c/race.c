/* A run of any length, for tests and measurements: it is recorded, made again by its file, and has windows.
 *
 *     race record FILE SEED ACCESSES EVERY
 *     race follow FILE SEED ACCESSES EVERY
 *     race window FILE SEED ACCESSES EVERY LAST SCRIPT LOG
 *
 * Four threads make ACCESSES accesses each, about one in EVERY of a shared object. What a thread does next follows from
 * SEED, from its number, and from the values that it was told. `record` writes the marks to FILE while the threads run.
 * `follow` makes the run again by FILE, which it reads meanwhile. Both say how far each thread came, and the objects' values.
 * `window` writes the last accesses as a script and its log, LAST of each thread or fewer, and says which they are. The exit
 * status is 0, or one of `enum fault`; then standard error has a line. */
#define _POSIX_C_SOURCE 200809L
#include "octet.h"
#include <errno.h>
#include <inttypes.h>
#include <pthread.h>
#include <stdarg.h>
#include <stdatomic.h>
#include <stdbool.h>
#include <stdio.h>
#include <stdlib.h>
#include <string.h>
#include <time.h>

/* Objects 0 to 3 are shared, and behind them each thread has eight of its own. A piece of a marks file is a frame of at most
 * 1,048,593 bytes, or the head with the five bytes before it. */
enum { THREADS = 4, SHARED = 4, OWN = 8, OBJECTS = SHARED + THREADS * OWN, ROOM = 1048600, READ_AT_ONCE = 32768 };
enum fault { WRONG_WORDS = 1, NO_MEMORY, NOT_WRITTEN, REFUSED, NOT_READ, OTHER_RUN, LEFT, NO_RECORDING, NO_THREADS, UNEXPECTED };
static const uint64_t MOST_ACCESSES = (uint64_t)1 << 42, MOST_BETWEEN = 1000000, MOST_LAST = 65535;
/* Odd numbers far from each other spread bits. The low bits of a product tell little, and are left aside. */
static const uint64_t SPREAD = 0x9E3779B97F4A7C15u, STEP = 0xD1342543DE82EF95u, LOW = 1u << 20;

/* What a thread is fed. So many of these bytes were. */
struct source {
    uint8_t bytes[ROOM];
    size_t length, fed;
    FILE *file;
    bool is_through;
};

/* What the thread writes to lies apart from what the main thread does, so that neither waits for the other's cache. */
struct thread {
    _Alignas(128) octet_session session;
    uint64_t number, told, made, found_after;
    int32_t status;
    struct source source;
    octet_stream stream;
    bool is_over;
    _Atomic bool is_done;
    pthread_t id;
};

static struct thread threads[THREADS];
static uint64_t starts[OBJECTS], seed, accesses, every;
static char declared[80];
static size_t declared_length;
static const char *name;
static FILE *written;
static atomic_int begun;

static _Noreturn void fail(enum fault fault, const char *format, ...) {
    va_list given;
    va_start(given, format);
    fputs("race: ", stderr);
    vfprintf(stderr, format, given);
    fputc('\n', stderr);
    va_end(given);
    exit(fault);
}

/* Ends the program unless a call is ready. `place` is where the file is refused, if it is. */
static void expect(int32_t status, const char *call, uint64_t place) {
    if (status == OCTET_READY) return;
    if (status == OCTET_NO_MEMORY) fail(NO_MEMORY, "no memory");
    if (status == OCTET_BAD_MARKS) fail(REFUSED, "the file is refused at %" PRIu64, place);
    if (status == OCTET_OTHER_RUN) fail(OTHER_RUN, "the file is the recording of another run");
    fail(UNEXPECTED, "%s answers %" PRId32, call, status);
}

static FILE *opened(const char *path, const char *mode) {
    FILE *file = fopen(path, mode);
    if (file) return file;
    if (errno == ENOMEM) fail(NO_MEMORY, "no memory");
    if (*mode == 'r') fail(NOT_READ, "%s cannot be read", path);
    fail(NOT_WRITTEN, "%s cannot be written", path);
}

static void add(FILE *file, const char *path, const uint8_t *bytes, size_t length) {
    if (fwrite(bytes, 1, length, file) != length) fail(NOT_WRITTEN, "%s cannot be written", path);
}

static void finish(FILE *file, const char *path) {
    if (fclose(file)) fail(NOT_WRITTEN, "%s cannot be written", path);
}

/* The next bytes of the marks file, or none at its end. */
static size_t read_some(FILE *file, uint8_t *bytes) {
    size_t length = fread(bytes, 1, READ_AT_ONCE, file);
    if (ferror(file)) fail(NOT_READ, "%s cannot be read", name);
    return length;
}

/* Lets others have the processor. Where a machine is busy, a thread that yields gives up its whole turn, which is far longer. */
static void nap(void) {
    const struct timespec shortest = {0, 1000};
    nanosleep(&shortest, NULL);
}

/* Calls again while another thread has to go on first. After some calls in a row that one may need this processor. */
static int32_t settled(struct thread *t, int32_t status, int32_t (*again)(octet_session *, uint64_t *), uint64_t *out) {
    for (unsigned calls = 1; status == OCTET_PENDING; calls++) {
        if (calls % 128 == 0) nap();
        status = again(&t->session, out);
    }
    return status;
}

/* Makes the access that comes next. */
static int32_t make(struct thread *t, uint64_t *out) {
    uint64_t spread = (t->told + t->made) * SPREAD / LOW, rest = spread / every, kind = rest / OWN % 4;
    uint16_t object = (uint16_t)(spread % every == 0 ? rest % SHARED : SHARED + t->number * OWN + rest % OWN);
    int32_t status;
    if (kind == 0) status = octet_access(&t->session, OCTET_WRITE, object, t->told, out);
    else if (kind == 1) status = octet_update(&t->session, OCTET_ADD, object, t->told, 0, out);
    else status = octet_access(&t->session, OCTET_READ, object, 0, out);
    return settled(t, status, octet_poll, out);
}

/* Makes all accesses, and ends the thread. The threads begin together, so that they race. */
static void *work(void *given) {
    struct thread *t = given;
    uint64_t out = 0;
    atomic_fetch_add(&begun, 1);
    while (atomic_load(&begun) < THREADS) nap();
    int32_t status = octet_start(&t->session);
    for (; status == OCTET_READY && t->made < accesses; t->made++) {
        status = make(t, &out);
        if (status != OCTET_READY) break;
        t->told = t->told * STEP + out + 1;
    }
    if (status == OCTET_READY) status = settled(t, octet_end(&t->session, &out), octet_end, &out);
    if (status != OCTET_READY) octet_stop(&t->session);
    t->found_after = out;
    t->status = status;
    atomic_store(&t->is_done, true);
    return NULL;
}

/* Whether a thread has come to where its recording ends, or has left it. Where it goes on no more for another reason the
 * program ends, since other threads may wait for it. */
static bool has_left(struct thread *t) {
    if (!atomic_load(&t->is_done) || t->status == OCTET_READY) return false;
    if (t->status != OCTET_OVER && t->status != OCTET_DIVERGED && t->status != OCTET_HALTED) expect(t->status, "an access", 0);
    return true;
}

/* Ends the program where a thread has left its recording. */
static void judge_all(void) {
    for (int i = 0; i < THREADS; i++)
        if (threads[i].status == OCTET_DIVERGED)
            fail(LEFT, "thread %d has left its recording: found after %" PRIu64 " accesses", i, threads[i].found_after);
    for (int i = 0; i < THREADS; i++)
        if (threads[i].status == OCTET_HALTED) fail(NO_RECORDING, "the marks of %s are no recording", name);
}

/* Lets the threads run to their ends, and serves them meanwhile. `serve` tells whether anything was done. */
static void run_all(octet_session *sessions, const octet_stream *streams, bool (*serve)(struct thread *)) {
    atomic_store(&begun, 0);
    for (int i = 0; i < THREADS; i++) {
        struct thread *t = &threads[i];
        t->session = sessions[i], t->stream = streams[i], t->number = (uint64_t)i;
        t->told = seed * STEP + t->number, t->made = 0, t->is_over = false;
        atomic_store(&t->is_done, false);
        if (pthread_create(&t->id, NULL, work, t)) fail(NO_THREADS, "no threads can be made");
    }
    for (int ended = 0; ended < THREADS;) {
        bool is_idle = true;
        ended = 0;
        for (int i = 0; i < THREADS; i++) {
            struct thread *t = &threads[i];
            if (has_left(t)) t->is_over = true;
            if (!t->is_over && serve(t)) is_idle = false;
            ended += t->is_over && atomic_load(&t->is_done);
        }
        if (is_idle) nap();
    }
    for (int i = 0; i < THREADS; i++) {
        pthread_join(threads[i].id, NULL);
        octet_free(&threads[i].stream);
        sessions[i] = threads[i].session;
    }
    judge_all();
}

/* Takes the next piece of a thread into the file. */
static bool take_some(struct thread *t) {
    static uint8_t piece[ROOM];
    size_t length = 0;
    int32_t status = octet_take(&t->stream, piece, sizeof piece, &length);
    if (status == OCTET_READY) add(written, name, piece, length);
    else if (status == OCTET_OVER) t->is_over = true;
    else if (status != OCTET_PENDING) expect(status, "octet_take", 0);
    return status != OCTET_PENDING;
}

/* Puts what comes next before the thread. Tells whether there is anything. */
static bool refill(struct source *s) {
    s->fed = 0;
    s->length = read_some(s->file, s->bytes);
    return s->length > 0;
}

/* Feeds a thread the next bytes, or says that there are no more. */
static bool feed_some(struct thread *t) {
    struct source *s = &t->source;
    uint64_t taken = 0;
    if (s->fed == s->length && !s->is_through) s->is_through = !refill(s);
    if (s->is_through) {
        int32_t status = octet_feed_end(&t->stream, &taken);
        if (status != OCTET_PENDING) expect(status, "octet_feed_end", taken);
        t->is_over = status == OCTET_READY;
        return t->is_over;
    }
    expect(octet_feed(&t->stream, s->bytes + s->fed, s->length - s->fed, &taken), "octet_feed", taken);
    s->fed += taken;
    return taken > 0;
}

/* Makes the run again by the file. Each thread notes so many of its last accesses. */
static void make_again(uint16_t last, octet_record *record) {
    octet_session sessions[THREADS] = {{0}};
    octet_stream streams[THREADS] = {{0}};
    const uint8_t *bytes = (const uint8_t *)declared;
    int32_t status = octet_follow_long(starts, OBJECTS, bytes, declared_length, last, sessions, THREADS, streams, THREADS);
    expect(status, "octet_follow_long", 0);
    for (int i = 0; i < THREADS; i++) {
        struct source *s = &threads[i].source;
        s->file = opened(name, "rb");
        s->length = s->fed = 0, s->is_through = false;
    }
    run_all(sessions, streams, feed_some);
    for (int i = 0; i < THREADS; i++) fclose(threads[i].source.file);
    expect(octet_close(sessions, THREADS, record), "octet_close", 0);
}

static void record_run(octet_record *record) {
    static uint8_t head[1024];
    octet_session sessions[THREADS] = {{0}};
    octet_stream streams[THREADS] = {{0}};
    const uint8_t *bytes = (const uint8_t *)declared;
    size_t length = 0;
    expect(octet_open_long(starts, OBJECTS, sessions, THREADS, streams, THREADS), "octet_open_long", 0);
    expect(octet_head(starts, OBJECTS, THREADS, bytes, declared_length, head, sizeof head, &length), "octet_head", 0);
    if (length > sizeof head) fail(UNEXPECTED, "octet_head gives %zu bytes", length);
    written = opened(name, "wb");
    add(written, name, head, length);
    run_all(sessions, streams, take_some);
    finish(written, name);
    expect(octet_close(sessions, THREADS, record), "octet_close", 0);
}

/* Says how far each thread came, and the objects' values. */
static void say_all(octet_record *record) {
    uint64_t values[OBJECTS];
    size_t length = 0;
    expect(octet_values(record, values, OBJECTS, &length), "octet_values", 0);
    for (int i = 0; i < THREADS; i++) {
        const char *end = threads[i].status == OCTET_OVER ? ", where its recording ends" : "";
        printf("thread %d: %" PRIu64 " accesses, told %" PRIu64 "%s\n", i, threads[i].made, threads[i].told, end);
    }
    for (size_t i = 0; i < length; i++) printf("object %zu: %" PRIu64 "\n", i, values[i]);
    octet_free(record);
}

/* Finds the last accesses that the threads of a run have noted, by the whole file. */
static void find(octet_record *whole, octet_stream *search) {
    static uint8_t piece[READ_AT_ONCE];
    uint64_t place = 0;
    size_t length;
    FILE *file = opened(name, "rb");
    expect(octet_search(whole, search), "octet_search", 0);
    while ((length = read_some(file, piece)) > 0) expect(octet_feed(search, piece, length, &place), "octet_feed", place);
    fclose(file);
    expect(octet_feed_end(search, &place), "octet_feed_end", place);
}

/* Writes a text of a record, and gives it: a script has at most 1 MiB, and a log 64 MiB. */
static uint8_t *keep(const char *path, octet_record *record, int32_t (*copy)(octet_record *, uint8_t *, size_t, size_t *),
                     size_t *length) {
    uint8_t none;
    expect(copy(record, &none, 0, length), "a copy", 0);
    uint8_t *bytes = malloc(*length);
    if (!bytes) fail(NO_MEMORY, "no memory");
    expect(copy(record, bytes, *length, length), "a copy", 0);
    FILE *file = opened(path, "wb");
    add(file, path, bytes, *length);
    finish(file, path);
    return bytes;
}

/* How many accesses each thread of a script has. */
static void count_accesses(const uint8_t *text, size_t length, uint64_t *counts) {
    int thread = -1;
    for (size_t at = 0; at < length; at++) {
        const char *line = (const char *)text + at;
        const uint8_t *end = memchr(text + at, '\n', length - at);
        size_t size = end ? (size_t)(end - text) - at : length - at;
        if (size == 6 && !memcmp(line, "thread", 6)) counts[++thread] = 0;
        else if (thread >= 0 && size > 5) counts[thread] += !memcmp(line, "read ", 5) || !memcmp(line, "write", 5) || !memcmp(line, "bump ", 5);
        at += size;
    }
}

/* A window that a script has no room for begins later, with half of the accesses. */
static void write_window(uint64_t last, const char *script, const char *log) {
    octet_record whole = {0}, window = {0};
    octet_stream search = {0};
    uint64_t counts[THREADS];
    size_t length = 0;
    for (int32_t status = OCTET_TOO_LONG; status != OCTET_READY; last -= last / 2) {
        make_again((uint16_t)last, &whole);
        find(&whole, &search);
        status = octet_window(&search, &window);
        if (status != OCTET_TOO_LONG || last == 1) expect(status, "octet_window", 0);
        octet_free(&whole), octet_free(&search);
    }
    uint8_t *text = keep(script, &window, octet_script, &length);
    count_accesses(text, length, counts);
    free(text);
    free(keep(log, &window, octet_log, &length));
    octet_free(&window);
    for (int i = 0; i < THREADS; i++) {
        uint64_t made = threads[i].made;
        if (counts[i] == 0) printf("thread %d: none of its accesses\n", i);
        else printf("thread %d: its accesses %" PRIu64 " to %" PRIu64 "\n", i, made - counts[i], made - 1);
    }
}

static uint64_t number_of(const char *what, const char *word, uint64_t least, uint64_t most) {
    uint64_t number = 0;
    bool is_number = *word != 0;
    for (; *word && is_number; word++) {
        uint64_t digit = (uint64_t)*word - '0';
        is_number = digit <= 9 && number <= (most - digit) / 10;
        number = 10 * number + digit;
    }
    if (!is_number || number < least) fail(WRONG_WORDS, "%s is a number from %" PRIu64 " to %" PRIu64, what, least, most);
    return number;
}

int main(int count, char **words) {
    const char *verb = count == 6 || count == 9 ? words[1] : "";
    bool is_window = count == 9 && !strcmp(verb, "window"), is_record = count == 6 && !strcmp(verb, "record");
    octet_record record = {0};
    if (!is_window && !is_record && (count != 6 || strcmp(verb, "follow")))
        fail(WRONG_WORDS, "wanted is `record FILE SEED ACCESSES EVERY`, `follow` with the same, or `window` with the same and "
                          "LAST SCRIPT LOG");
    name = words[2];
    seed = number_of("SEED", words[3], 0, UINT64_MAX);
    accesses = number_of("ACCESSES", words[4], 0, MOST_ACCESSES);
    every = number_of("EVERY", words[5], 1, MOST_BETWEEN);
    uint64_t last = is_window ? number_of("LAST", words[6], 1, MOST_LAST) : 0;
    if (is_window && (!strcmp(name, words[7]) || !strcmp(name, words[8]) || !strcmp(words[7], words[8])))
        fail(WRONG_WORDS, "FILE, SCRIPT and LOG have to differ");
    int length = snprintf(declared, sizeof declared, "%" PRIu64 " %" PRIu64 " %" PRIu64, seed, accesses, every);
    declared_length = (size_t)length;
    for (uint64_t i = 0; i < OBJECTS; i++) starts[i] = i;
    if (is_window) write_window(last, words[7], words[8]);
    else if (is_record) record_run(&record);
    else make_again(0, &record);
    if (!is_window) say_all(&record);
    if (fflush(stdout)) fail(NOT_WRITTEN, "what came of it cannot be said");
    return 0;
}
