/* What calls found outside the program: kept with the thread in the recording, and given back in a second run. */
#include "runtime.h"
#include <fcntl.h>
#include <sys/mman.h>

/* A file of each thread. It is written at once, so that what was kept of a process that was killed is there. */
void inputs_begin(const char *folder)
{
    char name[4096];
    for (int i = 0; i < THREADS; i++) {
        snprintf(name, sizeof name, "%s/inputs.%d", folder, i);
        threads[i].inputs_file = -1;
        if (mode == AGAIN)
            threads[i].inputs = map_file(name, &threads[i].inputs_length);
    }
}

static void put_inputs(struct thread *t, const void *bytes, size_t length)
{
    if (t->inputs_file < 0) {
        char name[4096];
        snprintf(name, sizeof name, "%s/inputs.%d", run_folder, t->number);
        int file = (int)syscall(SYS_open, name, O_WRONLY | O_CREAT | O_TRUNC | O_CLOEXEC, 0600);
        t->inputs_file = file < 0 ? file : (int)syscall(SYS_fcntl, file, F_DUPFD_CLOEXEC, 900);
        if (file >= 0)
            syscall(SYS_close, file);
    }
    while (length > 0) {
        long written = syscall(SYS_write, t->inputs_file, bytes, length);
        if (written <= 0) {
            say("octet: the inputs of thread %d cannot be written\n", t->number);
            leave_process(EXIT_UNSET);
        }
        bytes = (const char *)bytes + written;
        length -= (size_t)written;
    }
}

bool inputs_are_over(const struct thread *t)
{
    return t->inputs_taken >= t->inputs_length;
}

void input_bytes(struct thread *t, void *bytes, size_t length)
{
    if (mode == RECORD) {
        put_inputs(t, bytes, length);
        return;
    }
    if (t->inputs_length - t->inputs_taken < length) {
        /* It was in this call when the recording ended; or it makes one that it did not make. */
        if (!recording_is_whole || (t->stops && t->calls == t->stop_after))
            park(t);
        say("octet: thread %d asks for an input that it did not ask for\n", t->number);
        tell_left(t, t->made, 0, 0, NULL);
        leave_process(EXIT_DIVERGED);
    }
    raw_copy(bytes, t->inputs + t->inputs_taken, length);
    t->inputs_taken += length;
}

int64_t input(struct thread *t, int64_t value)
{
    input_bytes(t, &value, sizeof value);
    return value;
}

/* Room of the runtime's for what a call reads or writes, before it is where the program wants it. */
void *room_of(struct thread *t, size_t size)
{
    if (size > t->room_size) {
        if (t->room != NULL)
            syscall(SYS_munmap, t->room, t->room_size);
        t->room_size = (size + 65535) & ~65535ul;
        t->room = map_pages(t->room_size);
    }
    return t->room;
}

/* Piece by piece: each is touched under its right. */
void scatter(void *to, const void *from, size_t length, void *pc)
{
    while (length > 0) {
        size_t piece = left_in_object((uintptr_t)to);
        if (piece > length)
            piece = length;
        access_memory((uintptr_t)to, piece, OCTET_WRITE, pc);
        raw_copy(to, from, piece);
        to = (char *)to + piece;
        from = (const char *)from + piece;
        length -= piece;
    }
}

void gather(void *to, const void *from, size_t length, void *pc)
{
    while (length > 0) {
        size_t piece = left_in_object((uintptr_t)from);
        if (piece > length)
            piece = length;
        access_memory((uintptr_t)from, piece, OCTET_READ, pc);
        raw_copy(to, from, piece);
        to = (char *)to + piece;
        from = (const char *)from + piece;
        length -= piece;
    }
}

void copy_tracked(void *to, const void *from, size_t length, void *pc)
{
    char room[512];
    if (me == NULL) {
        raw_copy(to, from, length);
        return;
    }
    while (length > 0) {
        size_t piece = left_in_object((uintptr_t)from), other = left_in_object((uintptr_t)to);
        if (piece > other)
            piece = other;
        if (piece > sizeof room)
            piece = sizeof room;
        if (piece > length)
            piece = length;
        access_memory((uintptr_t)from, piece, OCTET_READ, pc);
        raw_copy(room, from, piece);
        access_memory((uintptr_t)to, piece, OCTET_WRITE, pc);
        raw_copy(to, room, piece);
        to = (char *)to + piece;
        from = (const char *)from + piece;
        length -= piece;
    }
}

void set_tracked(void *to, int value, size_t length, void *pc)
{
    while (length > 0) {
        size_t piece = me == NULL ? length : left_in_object((uintptr_t)to);
        if (piece > length)
            piece = length;
        access_memory((uintptr_t)to, piece, OCTET_WRITE, pc);
        raw_set(to, value, piece);
        to = (char *)to + piece;
        length -= piece;
    }
}
