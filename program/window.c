/* Makes a script and its log of accesses, for octet-window: in the order in which they stand in standard input.
 *
 *   window SCRIPT LOG    the head of the script, an empty line, then for each access its thread, 0 or 1 (a read or a write), the
 *                        number of its object, and the value that a write leaves
 *
 * One session runs at a time, so each access is ready at once, and what the library keeps of the run is in this order. */
#include "octet.h"
#include <inttypes.h>
#include <stdio.h>
#include <stdlib.h>
#include <string.h>

enum { MOST_THREADS = 16, MOST_TEXT = 1 << 20, MOST_BYTES = 1 << 26 };

static _Noreturn void fail(const char *what, int32_t status)
{
    fprintf(stderr, "octet-window: %s: %s\n", what, octet_status_text(status));
    exit(1);
}

static void want(const char *what, int32_t status)
{
    if (status != OCTET_READY)
        fail(what, status);
}

/* The head of the script: all lines up to an empty one. How many threads it has. */
static size_t read_head(char *text, size_t *length)
{
    char line[256];
    size_t threads = 0;
    *length = 0;
    while (fgets(line, sizeof line, stdin) != NULL && line[0] != '\n') {
        size_t more = strlen(line);
        if (*length + more >= MOST_TEXT)
            fail("the script", OCTET_TOO_LONG);
        memcpy(text + *length, line, more);
        *length += more;
        threads += strcmp(line, "thread\n") == 0;
    }
    return threads;
}

static void make_accesses(octet_session *sessions, size_t threads)
{
    unsigned thread, how, object;
    uint64_t value, found;
    while (scanf("%u %u %u %" SCNu64, &thread, &how, &object, &value) == 4) {
        if (thread >= threads || object > UINT16_MAX)
            fail("a line", OCTET_NO_OBJECT);
        want("a thread", octet_start(&sessions[thread]));
        want("an access", octet_access(&sessions[thread], how == 0 ? OCTET_READ : OCTET_WRITE, (uint16_t)object, value, &found));
        want("a thread", octet_stop(&sessions[thread]));
    }
}

static void keep(const char *name, int32_t (*part)(octet_record *, uint8_t *, size_t, size_t *), octet_record *record, uint8_t *room)
{
    size_t length = 0;
    want(name, part(record, room, MOST_BYTES, &length));
    FILE *to = fopen(name, "wb");
    if (to == NULL || fwrite(room, 1, length, to) != length || fclose(to) != 0) {
        fprintf(stderr, "octet-window: %s cannot be written\n", name);
        exit(1);
    }
}

int main(int count, char **words)
{
    octet_session sessions[MOST_THREADS] = {{0}};
    octet_record record = {0};
    uint8_t *room = malloc(MOST_BYTES);
    size_t length;
    if (count != 3 || room == NULL)
        return 64;
    size_t threads = read_head((char *)room, &length);
    if (threads == 0 || threads > MOST_THREADS)
        fail("the threads", OCTET_BAD_SIZE);
    want("the script", octet_open(room, length, sessions, threads));
    make_accesses(sessions, threads);
    want("the run", octet_close(sessions, threads, &record));
    keep(words[1], octet_script, &record, room);
    keep(words[2], octet_log, &record, room);
    return 0;
}
