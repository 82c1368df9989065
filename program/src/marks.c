/* The helper: a thread of the runtime that takes what the library has recorded and writes it, or feeds what was recorded.
 *
 * The file has what comes behind the head of a marks file. The head is the same for each run, so it is made anew. */
#include "runtime.h"
#include <fcntl.h>

enum { PIECE = 1 << 20, FED_AT_ONCE = 65536, ROOM_OF_HEAD = OBJECTS * 8 + 4096 };

static octet_stream streams[THREADS];
static uint64_t starts[OBJECTS];
static uint8_t head[ROOM_OF_HEAD];
static size_t head_length;
static const uint8_t *recorded;
static size_t recorded_length;
static int marks_file = -1;
static volatile int stops;
static pthread_t helper;
static __thread bool helps __attribute__((tls_model("initial-exec")));
static const uint8_t words[] = "octet program 1";

bool is_helper(void)
{
    return helps;
}

static void sleep_short(long nanoseconds)
{
    struct timespec time = {0, nanoseconds};
    syscall(SYS_nanosleep, &time, NULL);
}

static void put(const uint8_t *bytes, size_t length)
{
    while (length > 0) {
        long written = syscall(SYS_write, marks_file, bytes, length);
        if (written <= 0) {
            say("octet: the recording cannot be written: error %d\n", errno);
            leave_process(EXIT_UNSET);
        }
        bytes += written;
        length -= (size_t)written;
    }
}

/* Writes what there is. Whether there was anything. */
bool marks_take(void)
{
    static uint8_t piece[PIECE];
    bool any = false;
    for (int i = 0; i < THREADS; i++) {
        size_t length = 0;
        int32_t status;
        while ((status = octet_take(&streams[i], piece, sizeof piece, &length)) == OCTET_READY) {
            put(piece, length);
            any = true;
        }
        if (status == OCTET_NO_ROOM) {
            say("octet: a piece of the recording has %zu bytes, which is too much\n", length);
            leave_process(EXIT_UNSET);
        }
    }
    return any;
}

static void *take_all(void *nothing)
{
    helps = true;
    arena_number = ARENA_OF_RUNTIME;
    for (bool last = false; !last;) {
        last = stops;
        if (!marks_take() && !last)
            sleep_short(100000);
        end_by_signal();
    }
    return nothing;
}

static size_t feed_some(int number, size_t fed)
{
    uint64_t taken = 0;
    bool in_head = fed < head_length;
    const uint8_t *from = in_head ? head + fed : recorded + (fed - head_length);
    size_t left = in_head ? head_length - fed : recorded_length - (fed - head_length);
    int32_t status = octet_feed(&streams[number], from, left < FED_AT_ONCE ? left : FED_AT_ONCE, &taken);
    if (status != OCTET_READY) {
        say("octet: the recording is damaged at byte %lu\n", taken);
        leave_process(EXIT_UNSET);
    }
    return taken;
}

static void *feed_all(void *nothing)
{
    size_t fed[THREADS] = {0}, all = head_length + recorded_length;
    bool ended[THREADS] = {false};
    helps = true;
    for (unsigned turns = 0; !stops; turns++) {
        bool any = false;
        for (int i = 0; i < THREADS; i++) {
            uint64_t taken = 0;
            if (fed[i] < all)
                taken = feed_some(i, fed[i]);
            else if (!ended[i])
                taken = ended[i] = octet_feed_end(&streams[i], &taken) != OCTET_PENDING;
            any = any || taken > 0;
            fed[i] += fed[i] < all ? taken : 0;
        }
        if (any)
            continue;
        sleep_short(50000);
        if (turns % 256 == 0)
            end_from_outside();
    }
    return nothing;
}

static void open_file(const char *name)
{
    int file = (int)syscall(SYS_open, name, O_WRONLY | O_CREAT | O_TRUNC | O_CLOEXEC, 0600);
    /* A high number, so that the program's own files have the numbers that they have without it. */
    marks_file = file < 0 ? file : (int)syscall(SYS_fcntl, file, F_DUPFD_CLOEXEC, 900);
    if (marks_file < 0) {
        say("octet: %s cannot be written\n", name);
        leave_process(EXIT_UNSET);
    }
    syscall(SYS_close, file);
}

void marks_begin(const char *folder)
{
    char name[4096];
    octet_session sessions[THREADS] = {{0}};
    int32_t status;
    snprintf(name, sizeof name, "%s/marks", folder);
    octet_head(starts, OBJECTS, THREADS, words, sizeof words - 1, head, sizeof head, &head_length);
    if (mode == RECORD) {
        open_file(name);
        status = octet_open_long(starts, OBJECTS, sessions, THREADS, streams, THREADS);
    } else {
        recorded = map_file(name, &recorded_length);
        if (recorded == NULL) {
            say("octet: %s cannot be read\n", name);
            leave_process(EXIT_UNSET);
        }
        status = octet_follow_long(starts, OBJECTS, words, sizeof words - 1, 0, sessions, THREADS, streams, THREADS);
    }
    if (status != OCTET_READY) {
        say("octet: the library opens no run: %d\n", status);
        leave_process(EXIT_UNSET);
    }
    for (int i = 0; i < THREADS; i++)
        threads[i].session = sessions[i];
    /* A signal is for a thread of the program. */
    uint64_t all = UINT64_MAX, before;
    syscall(SYS_rt_sigprocmask, SIG_BLOCK, &all, &before, sizeof all);
    real.pthread_create(&helper, NULL, mode == RECORD ? take_all : feed_all, NULL);
    syscall(SYS_rt_sigprocmask, SIG_SETMASK, &before, NULL, sizeof all);
}

void marks_end(void)
{
    if (helps)
        while (marks_take())
            continue;
    stops = 1;
    if (!helps)
        real.pthread_join(helper, NULL);
}
