/* Where the calls of the library are in the program.
 *
 * A recording keeps the place of each 1024th call of a thread, or of each one (octet-record --exact). A second run compares: so it
 * says of a thread that leaves its recording what was recorded there. A second run for a window keeps its last accesses too. */
#include "runtime.h"
#include <fcntl.h>

enum { HELD = 256 };

uint64_t places_mask = 1023;
uint32_t window_most;
int report_file = -1;
static struct noted {
    struct watched access;
    uint64_t value;
    int thread;
} *noted;
static uint64_t noted_count;

static void name_of(const struct thread *t, char *name, size_t room)
{
    snprintf(name, room, "%s/places.%d", run_folder, t->number);
}

void places_begin(void)
{
    char name[4096];
    for (int i = 0; i < THREADS; i++) {
        struct places *places = &threads[i].places;
        places->file = -1;
        name_of(&threads[i], name, sizeof name);
        if (mode == AGAIN) {
            places->at = (struct place *)map_file(name, &places->length);
            places->length /= sizeof(struct place);
        }
    }
    if (window_most != 0)
        noted = map_pages(window_most * sizeof *noted);
}

static void write_places(struct thread *t)
{
    struct places *places = &t->places;
    if (places->file < 0) {
        char name[4096];
        name_of(t, name, sizeof name);
        int file = (int)syscall(SYS_open, name, O_WRONLY | O_CREAT | O_TRUNC | O_CLOEXEC, 0600);
        places->file = file < 0 ? file : (int)syscall(SYS_fcntl, file, F_DUPFD_CLOEXEC, 900);
        syscall(SYS_close, file);
    }
    syscall(SYS_write, places->file, places->at, places->count * sizeof(struct place));
    places->count = 0;
}

/* Called where all threads stand still. */
void places_end(void)
{
    for (int i = 0; i < THREADS && mode == RECORD; i++)
        if (threads[i].places.count > 0)
            write_places(&threads[i]);
}

void place_of_call(struct thread *t, int how, uint64_t at, void *from)
{
    struct places *places = &t->places;
    struct place found = {at << 1 | (uint64_t)(how != OCTET_READ), (uintptr_t)from};
    if (mode == RECORD) {
        if (places->at == NULL)
            places->at = map_pages(HELD * sizeof(struct place));
        places->at[places->count++] = found;
        if (places->count == HELD)
            write_places(t);
        return;
    }
    uint64_t number = t->calls / (places_mask + 1) - 1;
    if (number >= places->length)
        return;
    const struct place *then = &places->at[number];
    if (then->at_and_how != found.at_and_how || then->from != found.from) {
        tell_left(t, places_mask == 0 ? t->calls - 1 : t->calls - places_mask - 1, how, at, from);
        leave_process(EXIT_DIVERGED);
    }
}

/* Says where a thread left its recording, and what was recorded there, or at its next call of which the place was kept. Who started
 * the program makes lines of the addresses. */
void tell_left(const struct thread *t, uint64_t made, int how, uint64_t at, void *from)
{
    uint64_t call = from != NULL ? t->calls : t->calls + 1, place = (call + places_mask) & ~places_mask, number = place / (places_mask + 1) - 1;
    struct place then = {0, 0};
    if (number < t->places.length)
        then = t->places.at[number];
    if (report_file >= 0) {
        say_to(report_file, "left %d %lu %lu %d %lx %lx %lu %d %lx %lx\n", t->number, call, made, how, at, (uintptr_t)from, place,
               (int)(then.at_and_how & 1), then.at_and_how >> 1, then.from);
        return;
    }
    if (from != NULL)
        say("octet: thread %d leaves its recording at its call %lu, %s of %lx from %lx; it was still by it at call %lu\n", t->number, call,
            how == OCTET_READ ? "a read" : "a write", at, (uintptr_t)from - 1, made);
    if (then.from != 0)
        say("octet: recorded at its call %lu: %s of %lx from %lx\n", place, (then.at_and_how & 1) == 0 ? "a read" : "a write",
            then.at_and_how >> 1, then.from - 1);
}

/* One thread at a time goes on in a second run, so the order in which accesses are noted is one in which they were made. */
void window_note(struct thread *t, const struct watched *access)
{
    struct noted *note = &noted[noted_count % window_most];
    *note = (struct noted){*access, 0, t->number};
    t->watched = *access;
    t->watched.access = noted_count++;
}

/* The value that the access found or left: at the thread's next, when no other thread can have come between. */
void window_settle(struct thread *t, const struct watched *watched)
{
    struct noted *note = &noted[watched->access % window_most];
    size_t size = watched->size > 8 ? 8 : watched->size;
    if (noted_count - watched->access > window_most || note->thread != t->number || size == 0)
        return;
    raw_copy(&note->value, (void *)watched->at, size);
}

void window_write(void)
{
    uint64_t first = noted_count > window_most ? noted_count - window_most : 0;
    for (uint64_t i = first; window_most != 0 && i < noted_count; i++) {
        const struct noted *note = &noted[i % window_most];
        say_to(report_file, "access %d %d %lx %u %lu %lx\n", note->thread, note->access.mode, note->access.at, note->access.size, note->value,
               (uintptr_t)note->access.from);
    }
}
